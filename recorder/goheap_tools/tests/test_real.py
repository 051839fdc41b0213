"""Tests of version 4, of real runs: the rows that were worked out by hand, read, judged and explained."""

import io
import os
import random
import re
import subprocess
import unittest
from collections import Counter

from goheap_tools.formats import report, traces
from goheap_tools.formats.report_text import lines_of, strict_report, text_fault
from goheap_tools.formats.trace_text import Draft, fault_of
from goheap_tools.heap import rules
from goheap_tools.tests.testing import HERE, Folder, data, run

PROGRAM = os.path.join(HERE, "..", "crates", "goheap", "out", "goheap")
TABLES = ("journal", "flushes", "dead", "whole")
HEAD = "goheap 4\nheap 1 procs 2 rate 0 seed 1 goal 512\n"


def rows(table):
    """The cases of a table: what is said of each, its trace and its report; the report is nothing where the trace alone is told of."""
    kept = "".join(line for line in data(f"real-{table}.rows").splitlines(True) if not line.startswith("#"))
    for part in re.split("^= ", kept, flags=re.M)[1:]:
        said, _, text = part.partition("\n")
        at = len(text) if said.startswith("trace") else text.index("end\n") + len("end\n")
        yield said, text[:at], text[at:]


def judged(trace, text):
    """What is said of a report."""
    lines = text.splitlines(True)
    if fault := text_fault(lines):
        return f"report line {fault[0]} {'ends early' if fault[0] > len(lines) else 'malformed'}"
    broken = rules.first_fault(traces.read_trace(trace.splitlines(True)), report.read_report(lines))
    return f"rule {broken.rule} line {broken.line}" if broken else "sound"


def told_by_program(said):
    """What the program says on its errors, or its output, where the row says this."""
    if said == "sound":
        return "check ok\n"
    words = said.split()
    if words[0] == "rule":
        return f"goheap: report line {words[3]}: rule {words[1]}\n"
    return f"goheap: {words[0]} line {words[2]}: {' '.join(words[3:])}\n"


class Rows(unittest.TestCase):
    def test_reports(self):
        found = Counter()
        for table in TABLES:
            for said, trace, text in rows(table):
                if not said.startswith("trace"):
                    self.assertEqual(judged(trace, text), said, trace + text)
                    found[said.split(" line")[0]] += 1
        self.assertEqual(set(found), {"sound", "report", *(f"rule {number}" for number in range(1, 11))})
        self.assertGreater(found["sound"], 100)

    def test_traces(self):
        for table in TABLES:
            for said, trace, _ in rows(table):
                fault = fault_of(io.BytesIO(trace.encode()))
                self.assertEqual(f"trace line {fault[0]} {fault[1]}" if fault else "trace ok", said if said.startswith("trace") else "trace ok", trace)

    def test_the_program_says_the_same(self):
        if not os.path.exists(PROGRAM):
            self.skipTest("goheap is not built")
        check = lambda given: subprocess.run([PROGRAM, "check"], input=given, capture_output=True, text=True)
        if "line 1" in check(HEAD + "end\nend\n").stderr:
            self.skipTest("the program that is built does not read version 4")
        for table in TABLES:
            for said, trace, text in list(rows(table))[::3]:
                if said != "trace ok":
                    ran = check(trace + text)
                    self.assertEqual(ran.stdout + ran.stderr, told_by_program(said), trace + text)


class Texts(unittest.TestCase):
    """What is told of a trace that is too large, and of one that is cut short."""

    def fault(self, text, limit=None):
        return fault_of(io.BytesIO(text.encode()), limit)

    def faults(self, version, lines, **counted):
        """What is told of lines behind so many mark ends or marks."""
        draft = Draft(version)
        draft.procs = 1
        for name, count in counted.items():
            setattr(draft, name, count)
        return [draft.fault(line.encode()) for line in lines]

    def test_mark_ends(self):
        self.assertEqual(self.faults(3, ["gc 1", "gc 1"], mark_ends=9_999), [None, "limit markends"])
        self.assertEqual(self.faults(4, ["gc 1", "gc 1 all"], mark_ends=9_999), [None, None])
        self.assertEqual(self.faults(4, ["gc 1 all", "gc 1 all"], mark_ends=999_999), [None, "limit markends"])

    def test_marks(self):
        some = ["a 0 8 n 1", "a 0 8 n 1", "gc 1", "m 0 0", "m 1 1"]
        self.assertEqual(self.faults(3, some, marks=19_999_999), [None, None, None, None, "limit marks"])
        self.assertEqual(self.faults(4, some, marks=19_999_999), 5 * [None])
        dead = ["a 0 8 n 1", "a 0 8 n 1", "gc 1 all", "d 0 0", "d 1 1"]
        self.assertEqual(self.faults(4, dead, marks=(1 << 40) - 1), [None, None, None, None, "limit marks"])
        # the count comes before what is live
        self.assertEqual(self.faults(4, ["gc 1 all", "d 0 0"], marks=1 << 40), [None, "limit marks"])

    def test_bytes(self):
        text = HEAD + "a 0 24 s 1\nend\n"
        self.assertIsNone(self.fault(text, len(text)))
        self.assertEqual(self.fault(text, len(text) - 1), (4, "limit bytes"))
        self.assertEqual(self.fault(text, 4), (1, "limit bytes"))
        self.assertEqual(self.fault(text[:-1]), (4, "ends early"))
        self.assertEqual(self.fault(HEAD + 121 * "a" + "\n"), (3, "malformed"))
        self.assertEqual(self.fault(HEAD + 121 * "a" + "\n", len(HEAD) + 120), (3, "limit bytes"))
        self.assertEqual(self.fault(text + "x", len(text)), (5, "malformed"))


class Lives(unittest.TestCase):
    """In which cycles objects live, by lines of the marked and of the dead."""

    def lasts(self, *lines):
        trace = traces.read_trace([HEAD, *(f"{line}\n" for line in lines), "end\n"])
        return list(trace.lasts()), [list(trace.marked(mark_end)) for mark_end in range(1, trace.mark_ends + 1)]

    def test_the_dead(self):
        one = "a 0 8 s 1"
        self.assertEqual(self.lasts(one, one, one, "gc 1 all", "d 1 1", one, "gc 1 all", "gc 1 all", "d 0 0", "d 3 3"), ([2, 0, 3, 2], [[0, 2], [0, 2, 3], [2]]))

    def test_by_turns(self):
        one = "a 0 8 s 1"
        self.assertEqual(self.lasts(one, one, one, "gc 1", "m 0 1", "gc 1 all", "d 0 0", one, "gc 1", "m 3 3", "gc 1 all", "gc 1"), ([1, 2, 0, 4], [[0, 1], [1], [3], [3], []]))

    def test_against_a_slow_one(self):
        rng = random.Random(3)
        for _ in range(200):
            lines, live, wanted, objects = [], set(), {}, 0
            for mark_end in range(1, rng.randint(2, 7)):
                for _ in range(rng.randint(0, 5)):
                    lines.append("a 0 8 s 1")
                    live.add(objects)
                    wanted[objects] = mark_end - 1
                    objects += 1
                named = sorted(one for one in live if rng.random() < 0.5)
                is_of_dead = rng.random() < 0.5
                lines += ["gc 1 all" if is_of_dead else "gc 1", *(f"{'d' if is_of_dead else 'm'} {one} {one}" for one in named)]
                live = live - set(named) if is_of_dead else set(named)
                wanted.update(dict.fromkeys(live, mark_end))
            self.assertEqual(self.lasts(*lines)[0], [wanted[one] for one in range(objects)], lines)


class Explained(Folder):
    """What is said of a report of a real run."""

    def said(self, events, text, head=HEAD):
        status, told, fault = run("explain", self.put("trace", head + events + "end\n"), self.put("report", text + "end\n"))
        self.assertEqual(fault, "")
        self.assertEqual(status, 0 if told.startswith("The report meets") else 1)
        return told.splitlines()

    def journal(self, *lines, events="", head=HEAD):
        return self.said(events, "".join(f"j {number} 0 {line}\n" for number, line in enumerate(lines)), head)[-1]

    def test_a_sound_one(self):
        self.assertEqual(self.journal("hold 0 4"), "The report meets all ten rules: it is sound.")

    def test_journals(self):
        self.assertEqual(self.journal("hold 0 0"), "A run for others than objects has at least one page.")
        self.assertEqual(self.journal("hold 0 4", "hold 5 1"), "`hold 4 1` should stand there.")
        self.assertEqual(self.journal("hold 0 513"), "From no page are 513 pages free.")
        self.assertEqual(self.journal("hold 0 4", "free 0 3"), "The run for others than objects that begins at page 0 has 4 pages, and goes back whole: `free 0 4` should stand there.")
        self.assertEqual(self.journal("free 0 3"), "No run for others than objects begins at page 0, so none can go back there.")
        self.assertEqual(self.journal("hold 0 4", "give 0 4"), "What begins at page 0 is a run for others than objects, and goes back by `free 0 4`.")
        self.assertEqual(self.journal("pull 0 0 64", "keep 0 0 16"), "A run that is kept out of a page cache has at least one page and fewer than 16, and this one has 16.")
        self.assertEqual(self.journal("pull 0 0 64", "keep 0 3 2"), "A run is kept at the first run of its pages that is left of the block at page 0: `keep 0 0 2` should stand there.")
        self.assertEqual(self.journal("keep 0 0 1"), "Processor 0 has no block out.")
        self.assertEqual(self.journal("lend 0 0"), "A run that is lent has at least one page.")
        self.assertEqual(self.journal("lend 0 1"), "Free pages that are backed are lent, and of page 0 not all are such.")
        self.assertEqual(self.journal("lend 511 2", head=HEAD.replace("heap 1", "heap 2")), "A run that is lent lies in one chunk of 512 pages, and pages 511 to 512 are of several.")
        self.assertEqual(self.journal("hold 0 4", "free 0 4", "lend 0 4", "scav 0 2"), "The run of 4 pages that was lent at page 0 comes back whole: `scav 0 4` should stand there.")
        self.assertIn("In a trace of version 3 no journal has such a line", self.journal("hold 0 4", head=HEAD.replace("goheap 4", "goheap 3")))

    def test_flushes(self):
        told = self.said("a 0 24 s 1\na 1 24 s 1\n", "o 0 0xc000000000\no 1 0xc000000018\nj 0 0 take 0 1 6\nt 3 2 0\n")
        self.assertEqual(told[0], "report line 2 breaks rule 6, filling: `o 1 0xc000000018`")
        self.assertIn("In a cycle a small span has one processor up to the flush of that one", told[1])
        self.assertIn("the span is filled by processor 0, and not flushed since: object 0 at 0xc000000000 (line 1) is there.", told[-1])

    def test_a_refused_trace(self):
        trace = self.put("trace", HEAD + "a 0 24 s 1\ngc 1 all\nd 0 1\nend\n")
        self.assertEqual(run("explain", trace, "-", given="end\n"), (2, "", f"explain: {trace}: line 5: object 1 is not live: this trace is refused, and nothing is judged by it\n"))

    def test_the_dead(self):
        told = self.said("a 0 24 s 1\na 0 24 s 1\ngc 1 all\nd 0 0\n", "o 0 0xc000000000\no 1 0xc000000018\nj 0 0 take 0 1 6\ns 1 0 2 0\nt 3 2 0\n")
        self.assertIn("Of its objects mark end 1 marks 1 (object 1), and 1 that lived before it it does not (object 0): `s 1 0 1 1` should stand there.", told[-1])


class Looked(Folder):
    """What the tables and pictures say of the report with each line of a real run."""

    def setUp(self):
        super().setUp()
        _, trace, text = next(rows("whole"))
        self.trace, self.report = self.put("trace", trace), self.put("report", text)

    def test_pins(self):
        # By hand, behind the lines of cycle 1: the pages 0 to 2 are held and 4 and 5 kept, 3 is free; the spans at 6 and 7 are kept, those at 64 and 65 to 69
        # are emptied, and the block's pages had never memory. Of 341 slots of 24 bytes two are used, and of 512 of 16 bytes one, of which an object has 4.
        status, told, fault = run("pins", self.trace, self.report)
        self.assertEqual((status, fault), (0, ""))
        sums = {" ".join(line.split()[2:])[:17]: int(line.split()[0].replace(",", "")) for line in told.splitlines()[2:9]}
        self.assertEqual(sums, {"live objects, as ": 52, "free slots in kep": 16312, "rounding: the slo": 12, "tails of spans, b": 8, "free pages that a": 57344, "stacks and other ": 40960,
                                "backed; in Go's w": 114688})  # fmt: skip
        self.assertTrue(told.splitlines()[8].endswith("in Go's words HeapInuse 16,384, HeapIdle less HeapReleased 57,344"), told)
        self.assertEqual(run("pins", self.trace, self.report, "--csv")[1].splitlines()[1:9],
                         ["sum,live objects,52", "sum,free slots,16312", "sum,rounding,12", "sum,tails,8", "sum,free pages,57344", "sum,stacks and other uses,40960", "sum,backed,114688", "sum,not placed,0"])

    def test_leaks(self):
        status, told, fault = run("leaks", "--trace", self.trace)
        self.assertEqual(status, 0)
        of_report = run("leaks", self.report)
        self.assertEqual(told.splitlines()[1], of_report[1].splitlines()[1])
        # stack 1 has two objects of 24 bytes, and stack 4 a block of 16 for what rides in it
        self.assertEqual([line.split()[:1] + line.split()[-3:-2] for line in told.splitlines()[3:]], [["48B", "1"], ["16B", "4"]])

    def test_pictures(self):
        for words in ([], ["--trace", self.trace], ["--pins", "--trace", self.trace]):
            status, told, fault = run("picture", self.report, *words)
            self.assertEqual((status, fault), (0, ""))
            self.assertTrue(told.endswith("</svg>\n"))
        told = run("picture", self.report, "--trace", self.trace)[1]
        for name in ("stacks, and other uses", "out to the scavenger", "in a page cache"):
            self.assertIn(name, told)
        # held 3 and kept 2, the page 3, the spans 6, 7 and 64, the lent pages 66 and 67 and the free ones 65, 68 and 69; no page of the blocks but page 3 had memory
        self.assertIn("At the end 14 pages (0.11 MiB) are backed, 3 of them in 3 spans.", told)


class Strict(unittest.TestCase):
    """A report is read strictly in runs of lines, and line by line where that finds anything; both ways agree."""

    def test_both_ways_agree(self):
        for table in TABLES:
            for said, _, text in rows(table):
                if not said.startswith("trace"):
                    self.assertEqual(strict_report(text.encode()) is None, said.startswith("report"), text)

    def test_changes(self):
        _, _, text = next(rows("whole"))
        lines = text.splitlines(True)
        for at, line in enumerate(lines):
            for changed in (line.replace(" ", "  ", 1), line.replace(" ", " 0", 1), line.replace("\n", " 0\n"), line.replace("\n", "\r\n"), line.upper(), line + line, "", "\n", "x\n"):
                one = "".join([*lines[:at], changed, *lines[at + 1 :]])
                self.assertEqual(strict_report(one.encode()) is None, text_fault(lines_of(one.encode())) is not None, repr(changed))

    def test_addresses_of_nothing(self):
        head = HEAD + "a 0 {} s 1\nend\n"
        for address in ("0x0", "0x1"):
            self.assertEqual(judged(head.format(24), f"o 0 {address}\nend\n"), "rule 4 line 1")
            self.assertEqual(judged(head.format(0), f"o 0 {address}\nend\n"), "rule 1 line 1")
