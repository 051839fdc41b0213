"""Tests of page caches and of tiny objects that share blocks: what the tools read of traces and reports of the versions 2 and 3."""

import importlib.util
import os
import random
import re
import subprocess
import sys
import unittest
import xml.dom.minidom
from collections import Counter

from goheap_tools.formats import report, traces
from goheap_tools.heap import profile, rules, tiny
from goheap_tools.heap.classes import BASE, PAGE
from goheap_tools.heap.judged import Judged
from goheap_tools.tests.testing import HERE, Folder, block, data, module, run, text_of

EXAMPLES = os.path.join(HERE, "..", "examples")
MODEL = os.path.join(HERE, "..", "model")
PROGRAM = os.path.join(HERE, "..", "crates", "goheap", "out", "goheap")
HEAD = "goheap 3\nheap 1 procs 1 rate 0 seed 1 goal 512\n"


def model(name):
    """A module of the plain model, one of which has the name of one of the recorder's."""
    spec = importlib.util.spec_from_file_location(f"model_{name}", os.path.join(MODEL, f"{name}.py"))
    loaded = importlib.util.module_from_spec(spec)
    spec.loader.exec_module(loaded)
    return loaded


def report_of(trace, *words):
    """The report of the plain model."""
    return subprocess.run([sys.executable, os.path.join(MODEL, "run.py"), *words], input=trace, capture_output=True, text=True, check=True).stdout


def read(trace, text):
    return traces.read_trace(trace.splitlines(True)), report.read_report(text.splitlines(True))


def rows():
    """The cases with tiny objects: what is said of each, its trace and its report."""
    for part in re.split("^= ", data("tiny.rows"), flags=re.M)[1:]:
        said, _, text = part.partition("\n")
        at = text.index("end\n") + len("end\n")
        yield said, text[:at], text[at:]


class Riders(unittest.TestCase):
    def part(self, *objects, addresses=None):
        lines, before = [], 0
        for cycle, proc, size, kind in objects:
            lines += [*(cycle - before) * ["gc 1\n"], f"a {proc} {size} {kind} 1\n"]
            before = cycle
        return tiny.riders_of(traces.read_trace([HEAD.replace("procs 1", "procs 2"), *lines, "end\n"]), addresses)

    def test_offsets(self):
        # By hand: 8, then 4 at 8, 2 at 12, 1 at 14; 2 would end at 18, so it leads, and takes the block over; 3 rides at 2 there, 8 at 8.
        found = self.part(*((0, 0, size, "n") for size in (8, 4, 2, 1, 2, 3, 8)))
        self.assertEqual(found, {1: (0, 8), 2: (0, 12), 3: (0, 14), 5: (4, 2), 6: (4, 8)})

    def test_the_block_with_more_room_stays(self):
        self.assertEqual(self.part((0, 0, 8, "n"), (0, 0, 12, "n"), (0, 0, 4, "n")), {2: (0, 8)})
        self.assertEqual(self.part((0, 0, 12, "n"), (0, 0, 8, "n"), (0, 0, 8, "n")), {2: (1, 8)})

    def test_who_shares_nothing(self):
        # pointers, 16 bytes, none, another processor, another cycle
        self.assertEqual(self.part((0, 0, 8, "n"), (0, 0, 8, "s"), (0, 0, 16, "n"), (0, 0, 0, "n"), (0, 1, 8, "n"), (1, 0, 8, "n")), {})

    def test_a_lead_without_room_leads_nobody(self):
        self.assertEqual(self.part((0, 0, 8, "n"), (0, 0, 8, "n"), addresses=[report.MISSED, report.MISSED]), {})
        self.assertEqual(self.part((0, 0, 12, "n"), (0, 0, 8, "n"), (0, 0, 4, "n"), addresses=[BASE, report.MISSED, BASE + 12]), {2: (0, 12)})


class RulesOfVersions(Folder):
    def test_the_table(self):
        found = Counter()
        for said, trace, text in rows():
            fault = rules.first_fault(*read(trace, text))
            self.assertEqual(f"rule {fault.rule} line {fault.line}" if fault else "sound", said, trace + text)
            found[said.split(" line")[0]] += 1
        self.assertEqual(set(found), {"sound", *(f"rule {number}" for number in range(1, 11))})

    def test_the_program_says_the_same(self):
        if not os.path.exists(PROGRAM):
            self.skipTest("goheap is not built")
        for said, trace, text in list(rows())[::3]:
            told = "check ok" if said == "sound" else "goheap: report line {3}: rule {1}".format(*said.split())
            ran = subprocess.run([PROGRAM, "check"], input=trace + text, capture_output=True, text=True)
            self.assertEqual(ran.stdout + ran.stderr, told + "\n", trace + text)

    def test_reports_of_the_plain_model_are_sound(self):
        rng, made = random.Random(7), model("traces").made_trace
        for number in range(16):
            trace = made(rng, (1, 1, 2), (1, 2, 4), ends=2, version=1 + number % 4)
            self.assertIsNone(rules.first_fault(*read(trace, report_of(trace))), trace)

    def said(self, events, text, head=HEAD):
        status, told, fault = run("explain", self.put("trace", head + events + "end\n"), self.put("report", text + "end\n"))
        is_sound = told.startswith("The report meets all")
        self.assertEqual((status, fault), (0 if is_sound else 1, ""))
        return told.splitlines()

    def test_page_caches_are_explained(self):
        self.assertEqual(self.cached("j 0 0 pull 0 64 64\n")[3], "What is pulled is the block of the least free page, 0, with all its free pages: `pull 0 0 64` should stand there.")
        self.assertEqual(self.cached("j 0 0 pull 1 0 64\n")[3], "There is no processor 1: they are 0 to 0.")
        self.assertEqual(self.cached("j 0 0 pull 0 0 64\nj 1 0 pull 0 64 64\n")[3], "Processor 0 has the block at page 0 out, which it is to drop before it pulls another.")
        self.assertEqual(self.cached("j 0 0 cut 0 0 1 6\n")[3], "Processor 0 has no block out.")
        pull = "j 0 0 pull 0 0 64\n"
        self.assertEqual(self.cached(f"{pull}j 1 0 cut 0 3 1 6\n")[3], "A span is cut at the first run of its pages that is left of the block at page 0: `cut 0 0 1 6` should stand there.")
        self.assertEqual(self.cached(f"{pull}j 1 0 cut 0 0 16 1\n")[3], "A span of 16 or more pages is cut out of no page cache, and this one has 16.")
        self.assertEqual(self.cached(f"{pull}j 1 0 cut 0 0 2 6\n")[3], "A span for objects of 24 bytes with pointers (span class 6) has 1 pages, and not 2.")
        self.assertEqual(self.cached(f"{pull}j 1 0 drop 0 0 63\n")[3], "Of the block at page 0, 64 pages are left: `drop 0 0 64` should stand there.")
        self.assertEqual(self.cached(f"{pull}j 1 0 cut 0 0 1 6\nj 2 0 take 64 16 1\n")[3], "Behind a cut comes another cut of the same processor, 0, or the drop of its block.")
        self.assertEqual(self.cached(f"{pull}j 1 1 drop 0 0 64\n", "gc 1\n")[3], "The block at page 0, which processor 0 pulled in cycle 0, is out: each line up to its drop is of that cycle.")
        self.assertEqual(self.cached(pull)[0], "report line 2 breaks rule 2, journal: `end`")
        self.assertEqual(self.cached(pull)[2], "The block at page 0, which processor 0 pulled, is never dropped: `drop 0 0 64` should stand in the journal.")
        self.assertEqual(self.cached(pull, head=HEAD.replace("goheap 3", "goheap 1"))[3], "In a trace of version 1 no processor has a page cache.")

    def cached(self, lines, events="", head=HEAD.replace("goheap 3", "goheap 2")):
        return self.said(events, lines, head)

    def test_tiny_objects_are_explained(self):
        two, swept = "a 0 8 n 1\na 0 8 n 2\ngc 1\nm 1 1\n", "o 0 0xc000000000\no 1 0xc000000008\nj 0 0 take 0 1 5\n"
        self.assertEqual(self.said(two, swept + "s 1 0 1 0\nt 2 1 0\n"), ["The report meets all ten rules: it is sound."])
        told = self.said(two, swept.replace("0008", "0000") + "s 1 0 1 0\nt 2 1 0\n")
        self.assertEqual(told, [
            "report line 2 breaks rule 10, riders: `o 1 0xc000000000`",
            "A tiny object that rides in the block of another stands there, at its offset behind that one's address.",
            "Object 1 (8 bytes without pointers, of processor 0, stack 2) was allocated in cycle 0. It rides in the block of object 0 (line 1), which stands at 0xc000000000 and had room behind 8"
            " of its 16 bytes: `o 1 0xc000000008` should stand there."])  # fmt: skip
        told = self.said(two, swept + "s 1 0 0 1\nt 2 1 1\n")
        self.assertIn("Of its objects mark end 1 marks 1 (object 0 for 1), and 0 that lived before it it does not", told[3])
        told = self.said(two, swept + "j 1 1 give 0 1\ns 1 0 0 1\nt 2 1 1\n")
        self.assertIn("Object 0 (8 bytes without pointers, the lead of a block of 16 bytes, of processor 0, stack 1)", told[2])
        self.assertIn("The object lives in the cycles 0 to 1 for object 1, which rides in its block, and its span is given back in cycle 1.", told[4])


class ReadersOfVersions(Folder):
    """`leaks`, `pins`, `picture` and `compare`."""

    def files(self, version, number):
        rng = random.Random(number)
        trace = model("traces").made_trace(rng, (1, 2), (1, 2, 3), ends=3, version=version)
        trace = re.sub(" rate [0-9]+ ", " rate 1 ", trace, count=1)
        text = report_of(trace, "--each")
        return trace, text, self.put("trace", trace), self.put("report", text)

    def test_leaks_counts_the_trace_as_the_report_does(self):
        for number in range(9):
            trace, told = read(*self.files(1 + number % 3, number)[:2])
            found = [bucket for _, buckets in profile.buckets_of_trace(trace, told.addresses) for bucket in sorted(buckets)]
            # As of each mark end before the last the report has the changed buckets, as of the last all.
            last = [bucket for bucket in told.buckets if bucket.mark_end == trace.mark_ends]
            changed = [bucket for bucket in found if bucket.mark_end < trace.mark_ends]
            self.assertEqual(changed, [bucket for bucket in told.buckets if bucket.mark_end < trace.mark_ends])
            newest = {(bucket.stack, bucket.slot): bucket[3:] for bucket in found}
            self.assertEqual({(bucket.stack, bucket.slot): bucket[3:] for bucket in last}, newest)

    def test_pins_counts_slots_once(self):
        for number in range(9):
            trace, text, *paths = self.files(1 + number % 3, 20 + number)
            trace, told = read(trace, text)
            judged = Judged(trace, told)
            mark_end = trace.mark_ends
            live = [one for one in trace.marked(mark_end) if told.addresses[one] >= BASE]
            leads = {judged.riders[one].lead if one in judged.riders else one for one in live}
            sums = dict(line.split(",")[1:3] for line in run("pins", *paths, "--csv")[1].splitlines() if line.startswith("sum,"))
            asked = sum(trace.events[one].size for one in live)
            self.assertEqual(int(sums["live objects"]), asked)
            self.assertEqual(int(sums["rounding"]), sum(judged.need(one).slot for one in leads) - asked)
            self.assertEqual(sum(map(int, (size for part, size in sums.items() if part in ("live objects", "free slots", "rounding", "tails", "free pages")))), int(sums["backed"]))
            self.assertEqual(sum(sweep.kept for sweep in told.sweeps if sweep.cycle == mark_end), len(leads))

    def test_a_block_is_held_by_all_its_objects(self):
        events = "a 0 8 n 1\na 0 4 n 2\ngc 1\nm 1 1\nend\n"
        text = "o 0 0xc000000000\no 1 0xc000000008\nj 0 0 pull 0 0 64\nj 1 0 cut 0 0 1 5\nj 2 0 drop 0 0 63\ns 1 0 1 0\nt 2 1 0\nend\n"
        told = run("pins", self.put("trace", HEAD + events), self.put("report", text))[1].splitlines()
        self.assertEqual(told[0], "Mark end 1 of 1: 64 pages backed, 1 of them in 1 span kept")
        self.assertEqual([line.split()[:2] for line in told[2:7]], [["4", "0.0%"], ["8,176", "1.6%"], ["12", "0.0%"], ["0", "0.0%"], ["516,096", "98.4%"]])
        self.assertEqual(told[-1].split(), ["4", "100.0%", "8,192", "1.6%", "2,048.0", "1", "0", "1", "2", "(no", "frames)"])

    def test_journals_that_no_page_cache_can_have(self):
        trace = self.put("trace", HEAD + "a 0 24 s 1\ngc 1\nm 0 0\nend\n")
        for lines, why in (("j 0 0 pull 0 0 63\n", "line 2: the block has not so many such pages"), ("j 0 0 cut 0 0 1 6\n", "line 2: no such span can be made here"),
                           ("j 0 0 pull 0 0 64\nj 1 0 drop 0 0 63\n", "line 3: the block has not so many such pages"), ("j 0 0 pull 0 0 64\n", "line 3: a block of a page cache is out as a cycle ends"),
                           ("j 0 0 pull 0 2097152 64\n", "line 2: a region has 2097152 pages at most")):  # fmt: skip
            path = self.put("report", f"o 0 0xc000000000\n{lines}s 1 0 1 0\nt 3 1 0\nend\n")
            self.assertEqual(run("pins", trace, path), (2, "", f"pins: {path}: {why}\n"))

    def test_the_example_of_page_caches(self):
        trace, cached = (os.path.join(EXAMPLES, f"page-caches.{kind}") for kind in ("trace", "cached"))
        self.assertEqual(run("explain", trace, cached), (0, "The report meets all nine rules: it is sound.\n", ""))
        self.assertEqual(run("pins", trace, cached)[1].splitlines()[0], "Mark end 1 of 1: 144 pages backed, 25 of them in 6 spans kept; 1 object came behind it")
        self.assertIn("4         4         0       24", run("leaks", cached, "--trace", trace)[1])
        drawn = xml.dom.minidom.parseString(run("picture", cached, "--trace", trace)[1])
        told = [node.firstChild.data for node in drawn.getElementsByTagName("text")]
        self.assertIn("in a page cache", told)
        self.assertTrue(any(line.startswith("At the end 144 pages (1.12 MiB) are backed, 26 of them in 7 spans.") for line in told), told)

    def test_the_example_of_shared_blocks(self):
        trace, told, each = (os.path.join(EXAMPLES, f"shared-blocks.{kind}") for kind in ("trace", "report", "each"))
        self.assertEqual(report_of(text_of(trace), "--background=0"), text_of(told))
        self.assertEqual(report_of(text_of(trace), "--background=0", "--each"), text_of(each))
        # The profile blames the numbers, which are dead, and the tags hold the page.
        self.assertEqual([line.split()[0] for line in run("leaks", told)[1].splitlines()[3:]], ["32B"])
        self.assertEqual(run("leaks", told)[1].splitlines()[3].split()[-3:], ["1", "(no", "frames)"])
        self.assertEqual(run("leaks", "--trace", trace)[1].splitlines()[3:], run("leaks", each)[1].splitlines()[3:])
        self.assertEqual(run("pins", trace, told)[1].splitlines()[-1].split()[:1] + run("pins", trace, told)[1].splitlines()[-1].split()[-4:], ["8", "2", "2", "(no", "frames)"])

    def test_no_version_of_tomorrow(self):
        path = self.put("trace", HEAD.replace("goheap 3", "goheap 5") + "end\n")
        said = f"{path}: no trace: its first line is none of `goheap 1`, `goheap 2`, `goheap 3` and `goheap 4`\n"
        for name in ("leaks", "pins", "explain"):
            self.assertEqual(run(name, *(["--trace", path] if name == "leaks" else [path, path])), (2, "", f"{name}: {said}"))


class RecordsOfVersions(Folder):
    """`record --version`, and `compare` of such a trace."""

    # Three blocks of tiny objects, which the program asked 8, 4 and 8 bytes for, and a large object.
    LOG = "".join(block(BASE + 16 * at, "0x10").replace("mallocgc(0x10", f"mallocgc({asked:#x}") for at, asked in enumerate((8, 4, 8))) + block(BASE + PAGE, "0x18")

    def recorded(self, *words):
        self.stacks = os.path.join(self.folder.name, "stacks")
        status, trace, said = run("record", *words, "--stacks", self.stacks, given=self.LOG)
        self.assertEqual(status, 0, said)
        return trace

    def test_the_first_line_says_the_version(self):
        whole = self.recorded()
        self.assertTrue(whole.startswith("goheap 1\nheap 128 procs 1 rate 1 seed 1 goal 65536\n"))
        for version in (1, 2, 3):
            self.assertEqual(self.recorded("--version", str(version)), whole.replace("goheap 1", f"goheap {version}"))
        # A block is one of 16 bytes in each version: what rides in it is not in the log.
        self.assertEqual([line.split()[2] for line in whole.splitlines() if line.startswith("a ")], ["16", "16", "16", "24"])
        self.assertIn("# slots\t16:3 24:1\n", text_of(self.stacks))

    def test_own_sizes_may_ride(self):
        trace = self.recorded("--version", "3", "--no-tiny-blocks")
        self.assertEqual([line.split()[2] for line in trace.splitlines() if line.startswith("a ")], ["8", "4", "8", "24"])
        self.assertNotIn("# slots", text_of(self.stacks))
        text = report_of(trace)
        self.assertEqual(re.findall("^o . (.*)", text, re.M)[:3], ["0xc000000000", "0xc000000008", "0xc000000010"])
        paths = self.put("log", self.LOG), self.put("trace", trace), self.put("report", text)
        status, told, _ = run("compare", *paths, "--stacks", self.stacks)
        self.assertEqual(status, 0)
        self.assertEqual([line.split()[-2] for line in told.splitlines()[:6]], ["4", "3", "0", "1", "0", "0"])
        self.assertIn("tiny, in another's block in the model              1   25.0%", told)
        self.assertEqual(run("picture", paths[2], "--stacks", self.stacks)[0], 0)

    def test_the_region_of_a_version(self):
        self.assertIn("heap 4096 procs 1 rate 1 seed 1 goal 2097152\n", self.recorded("--version", "2", "--chunks", "4096"))
        self.assertIn("heap 128 procs 1 rate 1 seed 1 goal 2097152\n", self.recorded("--version", "3", "--goal", "2097152"))
        for words, why in ((["--chunks", "129"], "--chunks 129: a trace of version 1 has at most 128"), (["--goal", "65537"], "--goal 65537: a trace of version 1 has at most 65536"),
                           (["--version", "4"], "argument --version: invalid choice: 4 (choose from 1, 2, 3)"), (["--version", "2", "--chunks", "4097"], "no number from 1 to 4096")):  # fmt: skip
            status, _, said = run("record", *words, given=self.LOG)
            self.assertEqual((status, why in said), (2, True), said)


if __name__ == "__main__":
    unittest.main()
