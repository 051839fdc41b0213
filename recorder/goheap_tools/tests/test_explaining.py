"""Tests of `explain`: each rule, by the table of small reports that the prover computes, and its sentences."""

import itertools
import os
import re
import subprocess
import unittest

from goheap_tools.formats import report, traces
from goheap_tools.formats.report_text import text_fault
from goheap_tools.heap import rules
from goheap_tools.tests.testing import HERE, Folder, data, run

EXAMPLES = os.path.join(HERE, "..", "examples")
PROGRAM = os.path.join(HERE, "..", "crates", "goheap", "out", "goheap")
HEAD = "goheap 1\nheap 1 procs 1 rate 0 seed 1 goal 512\n"


def table():
    """The cases: what is said of each, its trace and its report."""
    for part in re.split("^= ", data("rules.rows"), flags=re.M)[1:]:
        said, _, text = part.partition("\n")
        at = text.index("end\n") + len("end\n")
        yield said, text[:at], text[at:]


class Rules(unittest.TestCase):
    def found(self, trace, lines):
        fault = text_fault(lines)
        if fault:
            return "order", fault[0]
        fault = rules.first_fault(traces.read_trace(trace.splitlines(True)), report.read_report(lines))
        return (f"rule {fault.rule}", fault.line) if fault else ("sound", 0)

    def test_the_table(self):
        count = 0
        for said, trace, text in table():
            kind, _ = self.found(trace, text.splitlines(True))
            self.assertEqual(kind, said.split()[0] if said.startswith("order") else said, trace + text)
            count += 1
        self.assertGreater(count, 150)
        self.assertEqual({said for said, _, _ in table() if said.startswith("rule")}, {f"rule {number}" for number in range(1, 10)})

    def test_the_program_says_the_same(self):
        if not os.path.exists(PROGRAM):
            self.skipTest("goheap is not built")
        for _, trace, text in itertools.islice(table(), 0, None, 3):
            ran = subprocess.run([PROGRAM, "check"], input=trace + text, capture_output=True, text=True)
            kind, line = self.found(trace, text.splitlines(True))
            told = {"sound": "check ok", "order": f"goheap: report line {line}: malformed"}.get(kind, f"goheap: report line {line}: {kind}")
            self.assertEqual(ran.stdout + ran.stderr, told + "\n", trace + text)

    def test_the_examples_are_sound(self):
        for name in sorted(os.listdir(EXAMPLES)):
            if name.endswith(".trace"):
                path = os.path.join(EXAMPLES, name)
                with open(path) as file:
                    rules_of_it = "ten" if file.readline() == "goheap 3\n" else "nine"
                self.assertEqual(run("explain", path, path[: -len("trace")] + "report"), (0, f"The report meets all {rules_of_it} rules: it is sound.\n", ""))


class Sentences(Folder):
    """What is said of a report that breaks a rule: the objects, the span, the line and what should stand there."""

    def said(self, events, text, *words, head=HEAD):
        status, told, fault = run("explain", self.put("trace", head + events + "end\n"), self.put("report", text + "end\n"), *words)
        is_sound = told.startswith("The report meets all")
        self.assertEqual((status, fault), (0 if is_sound else 1, ""))
        return told.splitlines()

    def check(self, events, text, first, *parts, head=HEAD):
        told = self.said(events, text, head=head)
        self.assertEqual(told[0], first)
        for part in parts:
            self.assertIn(part, "\n".join(told[2:]))

    def test_answers(self):
        self.check("a 0 24 s 1\n", "o 0 zero\n", "report line 1 breaks rule 1, answers: `o 0 zero`",
                   "Object 0 (24 bytes with pointers, of processor 0, stack 1) was allocated in cycle 0. It has 24 bytes, so an address or a miss should stand there, and not `zero`.")  # fmt: skip
        self.check("a 0 24 s 1\na 0 8 n 2\n", "o 0 0xc000000000\n", "report line 2 breaks rule 1, answers: `end`", "The trace has 2 objects, and the report answers 1 of them.",
                   "Object 1 (8 bytes without pointers, of processor 0, stack 2) was allocated in cycle 0, and has no `o` line.")  # fmt: skip

    def test_journal(self):
        take = "o 0 0xc000002000\nj 0 0 take 1 1 6\nt 3 1 0\n"
        self.check("a 0 24 s 1\n", take, "report line 2 breaks rule 2, journal: `j 0 0 take 1 1 6`",
                   "Pages are taken at first fit: the least page from which 1 are free is 0, and page 1 lies behind it.", "`take 0 1 6` should stand there.")  # fmt: skip
        self.check("", "j 0 0 take 0 4 134\nj 1 0 give 1 3\n", "report line 2 breaks rule 2, journal: `j 1 0 give 1 3`",
                   "No span begins at page 1: it is in the span at pages 0 to 3, which is given back whole.")  # fmt: skip
        scav = "j 0 0 take 0 128 1\nj 1 0 give 0 128\nj 2 0 scav 0 64\n"
        self.check("", scav, "report line 3 breaks rule 2, journal: `j 2 0 scav 0 64`", "`scav 64 64` should stand there.", head=HEAD.replace("goal 512", "goal 0"))

    def test_misses(self):
        told = "o 0 0xc000000000\no 1 miss 0\nj 0 0 take 0 512 0\nj 1 0 miss 1 2\n"
        self.check("a 0 4194304 s 1\na 0 1 s 1\n", told, "report line 2 breaks rule 3, misses: `o 1 miss 0`", "It names journal line 0.", "That is `j 0 0 take 0 512 0` (line 3).",
                   "The line should be a miss of its cycle, pages and span class: `j 0 0 miss 1 2`. Such lines are `j 1 0 miss 1 2` (line 4).")  # fmt: skip
        twice = "o 0 0xc000000000\no 1 miss 1\no 2 miss 1\nj 0 0 take 0 512 0\nj 1 0 miss 1 2\n"
        self.check("a 0 4194304 s 1\na 0 1 s 1\na 0 1 s 1\n", twice, "report line 3 breaks rule 3, misses: `o 2 miss 1`",
                   "That is `j 1 0 miss 1 2` (line 5), which object 1 (line 2) names already")  # fmt: skip

    def test_places(self):
        with open(os.path.join(EXAMPLES, "pointers-apart.exchanged")) as file:
            exchanged = file.read()[: -len("end\n")]
        self.check("a 0 24 s 1\na 0 24 n 2\na 0 24 s 1\na 0 24 n 2\n", exchanged, "report line 1 breaks rule 4, places: `o 0 0xc000002000`",
                   "Its address 0xc000002000 is in the span at page 1, for objects of 24 bytes without pointers (span class 7), taken in cycle 0 by `j 1 0 take 1 1 7` (line 6).",
                   "It needs a slot of a span for objects of 24 bytes with pointers (span class 6)")  # fmt: skip
        given = "o 0 0xc000000000\nj 0 0 take 0 1 6\nj 1 1 give 0 1\n"
        self.check("a 0 24 s 1\ngc 1\nm 0 0\n", given, "report line 1 breaks rule 4, places: `o 0 0xc000000000`", "The object lives in the cycles 0 to 1, and its span is given back in cycle 1.")
        self.check("a 0 24 s 1\n", "o 0 0xc000000001\nj 0 0 take 0 1 6\n", "report line 1 breaks rule 4, places: `o 0 0xc000000001`", "That is 1 bytes behind the beginning of slot 0")
        self.check("a 0 24 s 1\n", "o 0 0xc000400000\nj 0 0 take 0 1 6\n", "report line 1 breaks rule 4, places: `o 0 0xc000400000`", "is not in the region, which goes from 0xc000000000 up to 0xc000400000.")
        self.check("a 0 24 s 1\n", "o 0 0xc000002000\nj 0 0 take 0 1 6\n", "report line 1 breaks rule 4, places: `o 0 0xc000002000`", "is in page 1, which is in no span as cycle 0 ends. No span was ever there.")

    def test_apart(self):
        told = "o 0 0xc000000000\no 1 0xc000000000\nj 0 0 take 0 1 6\n"
        self.check("a 0 24 s 1\ngc 1\nm 0 0\na 0 20 s 2\n", told, "report line 2 breaks rule 5, apart: `o 1 0xc000000000`",
                   "Object 1 (20 bytes with pointers, of processor 0, stack 2) was allocated in cycle 1, at 0xc000000000.",
                   "Object 0 (24 bytes with pointers, of processor 0, stack 1) was allocated in cycle 0, at 0xc000000000 (line 1), and lives in the cycles 0 to 1: it is still alive then.",
                   "Both fill the 24 bytes of slot 0 of the span at page 0")  # fmt: skip

    def test_filling(self):
        self.check("a 0 24 s 1\n", "o 0 0xc000000018\nj 0 0 take 0 1 6\n", "report line 1 breaks rule 6, filling: `o 0 0xc000000018`",
                   "Slot 0 of the span, at 0xc000000000, is free as the object comes", "`o 0 0xc000000000` should stand there.")  # fmt: skip
        left = "o 0 0xc000000000\no 1 0xc000002000\nj 0 0 take 0 1 6\nj 1 0 take 1 1 6\n"
        self.check("a 0 24 s 1\na 0 24 s 1\n", left, "report line 2 breaks rule 6, filling: `o 1 0xc000002000`", "Its processor left the span at page 0", "while slot 1 there is free",
                   "`o 1 0xc000000018` should stand there.")  # fmt: skip
        two = "o 0 0xc000000000\no 1 0xc000000008\nj 0 0 take 0 1 2\n"
        self.check("a 0 8 s 1\na 1 8 s 1\n", two, "report line 2 breaks rule 6, filling: `o 1 0xc000000008`",
                   "the span is filled by processor 0: object 0 at 0xc000000000 (line 1) is there", head=HEAD.replace("procs 1", "procs 2"))  # fmt: skip

    SWEPT = "o 0 0xc000000000\no 1 0xc000000018\nj 0 0 take 0 1 6\n"

    def test_sweeps(self):
        events = "a 0 24 s 1\na 0 24 s 1\ngc 1\nm 1 1\n"
        self.check(events, self.SWEPT + "s 1 0 2 0\nt 3 2 1\n", "report line 4 breaks rule 7, sweeps: `s 1 0 2 0`",
                   "Of its objects mark end 1 marks 1 (object 1), and 1 that lived before it it does not (object 0): `s 1 0 1 1` should stand there.")  # fmt: skip
        self.check(events, self.SWEPT + "t 3 2 1\n", "report line 5 breaks rule 7, sweeps: `end`", "It has no sweep: `s 1 0 1 1` should stand among the `s` lines.")
        given = "o 0 0xc000000000\nj 0 0 take 0 1 6\nj 1 1 give 0 1\ns 1 0 1 0\nt 3 1 1\n"
        self.check("a 0 24 s 1\ngc 1\n", given, "report line 3 breaks rule 7, sweeps: `j 1 1 give 0 1`", "Its sweep prints that 1 were kept: `s 1 0 1 0` (line 4).")
        kept = "o 0 0xc000000000\nj 0 0 take 0 1 6\ns 1 0 0 1\nt 3 1 1\n"
        self.check("a 0 24 s 1\ngc 1\n", kept, "report line 3 breaks rule 7, sweeps: `s 1 0 0 1`", "Nothing of it is kept, so it is to be given back in cycle 1")

    def test_totals(self):
        events = "a 0 24 s 1\na 0 24 s 1\ngc 1\nm 1 1\n"
        self.check(events, self.SWEPT + "s 1 0 1 1\nt 3 2 0\n", "report line 5 breaks rule 8, totals: `t 3 2 0`",
                   "Of size class 3, of 24 bytes, 2 objects are placed, and 1 of them do not live in the last cycle, 1: `t 3 2 1` should stand there.")  # fmt: skip
        self.check(events, self.SWEPT + "s 1 0 1 1\n", "report line 5 breaks rule 8, totals: `end`", "`t 3 2 1` should stand among the `t` lines.")

    def test_profile(self):
        events, head = "a 0 24 s 1\na 0 24 s 1\ngc 1\nm 1 1\n", HEAD.replace("rate 0", "rate 1")
        self.check(events, self.SWEPT + "s 1 0 1 1\nt 3 2 1\np 1 1 24 2 0\n", "report line 6 breaks rule 9, profile: `p 1 1 24 2 0`",
                   "Of stack 1 and slots of 24 bytes, 2 objects of the cycles before mark end 1 are sampled at rate 1, and it does not mark 1 of them: `p 1 1 24 2 1` should stand there.", head=head)  # fmt: skip
        self.check(events, self.SWEPT + "s 1 0 1 1\nt 3 2 1\n", "report line 6 breaks rule 9, profile: `end`", "`p 1 1 24 2 1` should stand among the `p` lines.", head=head)

    def test_names_and_what_is_no_report(self):
        stacks = self.put("stacks", "1\truntime.mallocgc /go/malloc.go:1\tmain.f /m.go:7\n")
        self.assertIn("stack 1, main.f /m.go:7)", "\n".join(self.said("a 0 24 s 1\n", "o 0 zero\n", "--stacks", stacks)))
        for text, why in (("o 1 zero\n", "report line 1 is malformed: the lines of objects are numbered from 0, so its number should be 0: `o 1 zero`."),
                          ("o 0 zero\nx\n", "report line 2 is malformed: it is no line of a report: `x`."),
                          ("j 0 0 take 0 1 6\no 0 zero\n", "report line 2 is malformed: a line of objects may not stand behind one of the journal: `o 0 zero`."),
                          ("o 0 0xC000000000\n", "report line 1 is malformed: it is not the form of a line of objects: `o 0 0xC000000000`.")):  # fmt: skip
            self.assertEqual(self.said("a 0 0 n 1\n", text), [why])
        trace = self.put("trace", HEAD + "end\n")
        self.assertEqual(run("explain", trace, self.put("report", ""))[1], "report line 1 is malformed: the report ends without the line `end`.\n")
        self.assertEqual(run("explain", trace, trace), (2, "", f"explain: {trace}: this is a trace, and no report (goheap run --each < trace > report)\n"))
