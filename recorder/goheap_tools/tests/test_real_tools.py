"""The tools on the pair of a real run: what `pins` says is what the runtime counted, and `leaks`, `picture`, `explain`, `pprof` and `compare` take it."""

import gzip
import json
import lzma
import os
import subprocess

from goheap_tools.inside import events as form
from goheap_tools.inside.recording import Recording
from goheap_tools.look import judging
from goheap_tools.tests import test_stored
from goheap_tools.tests.go_tools import GoTest, recorded, toolchains
from goheap_tools.tests.testing import HERE, Folder, run

PAGE = 8192
# What is allocated between the end of a sweep and the call that counts, on the processors of the program, at most.
SOME = 16 * PAGE


class Paired(Folder):
    """Tests of the three files of a recording."""

    def pair(self, recording, name="real"):
        """The front of the names of the files that `pair` makes of the recording."""
        front = os.path.join(self.folder.name, name)
        status, _, said = run("pair", recording, "-o", front)
        self.assertEqual(status, 0, said)
        return front

    def stored(self, path):
        copy = os.path.join(self.folder.name, "stored.heap")
        with lzma.open(path) as packed, open(copy, "wb") as file:
            file.write(packed.read())
        return copy

    def told(self, name, *words, status=0):
        found, out, said = run(name, *words)
        self.assertEqual(found, status, said)
        return out

    def mark_ends(self, recording):
        with Recording(recording) as read:
            return [event for event in read.events() if isinstance(event, form.Counts) and event.kind == form.MARK_END]

    def pins(self, front, mark_end):
        return json.loads(self.told("pins", f"{front}.trace", f"{front}.report", "--stacks", f"{front}.stacks", "--at", str(mark_end), "--json"))


class Sums(Paired):
    def agree(self, recording):
        """At each mark end the sums of `pins` are the runtime's own, to the byte, and the parts of the backed bytes are together what is backed."""
        front, counted = self.pair(recording), self.mark_ends(recording)
        self.assertGreater(len(counted), 3)
        for mark_end, told in enumerate(counted[:-1], 1):
            found = self.pins(front, mark_end)
            before, behind = found["memory"]
            self.assertEqual((before["HeapInuse"], before["StackInuse"], before["HeapReleased"]), (told.heap_in_use, told.stack_in_use, told.released))
            for row in (before, behind):
                self.assertEqual(row["HeapIdle"] - row["HeapReleased"] + row["HeapInuse"] + row["StackInuse"] + row["other"], found["sum"]["backed"])
            self.assertEqual(sum(size for part, size in found["sum"].items() if part not in ("backed", "not_placed")), found["sum"]["backed"])
            self.assertEqual(behind["HeapInuse"], sum(row["pages"] for row in found["class"]) * PAGE)
            self.assertEqual(found["sum"]["stacks_and_other_uses"], behind["StackInuse"] + behind["other"])

    def test_stored(self):
        for path in test_stored.STORED:
            with self.subTest(path=os.path.basename(path)):
                self.agree(self.stored(path))

    def test_the_table(self):
        front = self.pair(self.stored(test_stored.STORED[-1]))
        lines = self.told("pins", f"{front}.trace", f"{front}.report", "--stacks", f"{front}.stacks").splitlines()
        at = next(number for number, line in enumerate(lines) if line.startswith("In Go's words"))
        self.assertEqual(lines[at].split(), "In Go's words HeapInuse StackInuse HeapIdle HeapReleased other".split())
        self.assertRegex(lines[at + 1], r"^before its sweep( +[0-9,]+){5}$")
        self.assertRegex(lines[at + 2], r"^behind it( +[0-9,]+){5}$")

    def test_without_the_stacks_the_heap_s_size_is_not_known(self):
        front = self.pair(self.stored(test_stored.STORED[-1]))
        told = self.told("pins", f"{front}.trace", f"{front}.report")
        self.assertIn("backed; in Go's words HeapInuse ", told)
        self.assertNotIn("HeapReleased  ", told)


class Counted(Paired, GoTest):
    """A program that reads `runtime.MemStats` behind each of its collections."""

    def test_a_program_that_counts_itself(self):
        for version in toolchains():
            for processors in ("1", "4"):
                with self.subTest(version=version, processors=processors):
                    path = os.path.join(self.folder.name, f"{version}-{processors}.heap")
                    command = [os.path.join(HERE, "record"), "-o", path, "--", recorded(version, "heaps"), "memory"]
                    said = subprocess.run(command, env={**os.environ, "GOMAXPROCS": processors}, capture_output=True, text=True, timeout=120)
                    printed = [tuple(map(int, line.split()[1:])) for line in said.stderr.splitlines() if line.startswith("memory ")]
                    self.assertEqual(len(printed), 4, said.stderr)
                    self.hold_against(path, printed)

    def hold_against(self, path, printed):
        front, last = self.pair(path), len(self.mark_ends(path))
        for number, in_use, stacks, idle, _ in printed:
            if number < last:
                behind = self.pins(front, number)["memory"][1]
                self.assertLessEqual(abs(behind["HeapInuse"] - in_use), SOME, (number, behind))
                self.assertLessEqual(abs(behind["StackInuse"] - stacks), SOME, (number, behind))
                self.assertLessEqual(abs(behind["HeapInuse"] + behind["StackInuse"] + behind["HeapIdle"] + behind["other"] - in_use - stacks - idle), SOME, (number, behind))


class Looking(Paired):
    def setUp(self):
        super().setUp()
        self.front = self.pair(self.stored(test_stored.STORED[-1]))
        self.trace, self.report, self.stacks = (f"{self.front}.{name}" for name in ("trace", "report", "stacks"))

    def test_leaks(self):
        told = self.told("leaks", self.report, "--stacks", self.stacks)
        self.assertRegex(told.splitlines()[0], r"^Mark end 4: [0-9.]+kB in use, [0-9.]+[kM]B allocated; all objects; goroutine stacks are not in this: [0-9.]+kB$")
        self.assertIn("main.few", told)
        of_trace = self.told("leaks", self.report, "--trace", self.trace, "--stacks", self.stacks)
        self.assertEqual(of_trace.splitlines()[0].split("; ")[0], told.splitlines()[0].split("; ")[0])

    def test_explain(self):
        self.assertEqual(self.told("explain", self.trace, self.report, "--stacks", self.stacks), "The report meets all ten rules: it is sound.\n")

    def test_pictures(self):
        for words in ([], ["--pins"]):
            told = self.told("picture", self.report, "--trace", self.trace, "--stacks", self.stacks, *words)
            self.assertTrue(told.endswith("</svg>\n"))

    def test_pprof(self):
        path = os.path.join(self.folder.name, "heap.pb.gz")
        self.told("pprof", self.stacks, self.report, "-o", path)
        with gzip.open(path) as file:
            data = file.read()
        self.assertIn(b"main.mix", data)
        self.assertEqual(run("pprof", self.stacks, self.trace)[0], 2)
        for go in toolchains().values():
            top = subprocess.run([go, "tool", "pprof", "-top", "-sample_index=inuse_objects", path], capture_output=True, text=True, env={**os.environ, "GOTOOLCHAIN": "local"})
            self.assertIn("main.mix", top.stdout, top.stderr)

    def test_a_model_beside_it(self):
        model = os.path.join(self.folder.name, "model")
        judging.run_trace(self.trace, model)
        found = json.loads(self.told("compare", self.trace, self.report, model, "--json"))
        counts = found["objects"]
        parts = sum(count for name, count in counts.items() if name not in ("objects", "at_the_same_address"))
        self.assertEqual(parts, counts["objects"])
        self.assertGreater(counts["the_same_slot_of_the_span"], counts["objects"] / 4)
        self.assertEqual(found["mark_ends"][-1]["spans"], sum(row["spans"] for row in found["classes"]))
        # of each mark end the real spans are those of `pins`
        for row in found["mark_ends"][:-1]:
            pins = self.pins(self.front, row["mark_end"])
            self.assertEqual((row["spans"], row["pages"]), (sum(one["spans"] for one in pins["class"]), sum(one["pages"] for one in pins["class"])))
        # a report beside itself
        same = json.loads(self.told("compare", self.trace, self.report, self.report, "--json"))["objects"]
        self.assertEqual((same["another_slot_of_the_span"], same["in_anothers_block_in_one_of_the_two"], same["missed_by_one_of_the_two"]), (0, 0, 0))
        self.assertEqual(same["at_the_same_address"], same["the_same_slot_of_the_span"] + same["not_known"])


class ByHand(Folder):
    """Three objects of 24 bytes and one of 0, and one of 8192 that the real run has on page 1 and the model too."""

    TRACE = "goheap 4\nheap 1 procs 1 rate 1 seed 1 goal 512\na 0 24 s 0\na 0 24 s 0\na 0 0 s 0\na 0 8192 n 0\na 0 24 s 1\ngc 1 all\nd 0 0\nend\n"
    FRONT = "o 0 0xc000000000\no 1 0xc000000018\no 2 zero\no 3 0xc000002000\n"
    BACK = "j 0 0 take 0 1 6\nj 1 0 take 1 1 103\ns 1 0 2 1\ns 1 1 1 0\nend\n"

    def test_slots_and_spans(self):
        trace = self.put("trace", self.TRACE)
        real = self.put("real", self.FRONT + "o 4 0xc000000030\n" + self.BACK)
        model = self.put("model", self.FRONT + "o 4 0xc000000048\n" + self.BACK)
        status, out, said = run("compare", trace, real, model)
        self.assertEqual((status, said), (0, ""))
        rows = {line[:42].strip(): int(line[42:].split()[0]) for line in out.splitlines()[:5]}
        self.assertEqual(rows, {"objects": 5, "of size 0": 1, "at the same address": 3, "the same slot of the span": 3, "another slot of the span": 1})
        table = [line.split() for line in out.splitlines() if line.split()[:1] in (["24"], ["8192"], ["1"])]
        # 341 slots of 24 bytes, two of which are kept; 1 of 8192, which is
        self.assertEqual(table, [["24", "2", "1", "0", "1", "1", "1", "1", "339", "339"], ["8192", "1", "0", "0", "1", "1", "1", "1", "0", "0"], ["1", "2", "2", "2", "2", "339", "339"]])

    def test_reports_of_another_trace(self):
        trace, short = self.put("trace", self.TRACE), self.put("short", "o 0 zero\nend\n")
        status, _, said = run("compare", trace, short, short)
        self.assertEqual(status, 2)
        self.assertIn("it is no report of this trace", said)

    def test_a_page_of_two_spans_in_one_cycle(self):
        """The object of 40,960 bytes may be of either span, which begin at two pages; so its slot is not known."""
        trace = self.put("trace", "goheap 4\nheap 1 procs 1 rate 1 seed 1 goal 512\na 0 40960 n 0\nend\n")
        lines = "o 0 0xc000002000\nj 0 0 take 0 5 1\nj 1 0 give 0 5\nj 2 0 hold 0 1\nj 3 0 take 1 5 1\nend\n"
        status, out, said = run("compare", trace, self.put("real", lines), self.put("model", lines))
        self.assertEqual((status, said), (0, ""))
        self.assertRegex(out, r"(?m)^not known +1 +100\.0%$")
