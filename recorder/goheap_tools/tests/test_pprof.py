"""Tests of the profile for pprof: what a small reader of its own finds in it, and what `go tool pprof` does where there is a Go."""

import gzip
import os
import re
import subprocess
import unittest

from goheap_tools.formats import heaptext
from goheap_tools.tests.test_program import go_command
from goheap_tools.tests.testing import HERE, Folder, run, text_of
from goheap_tools.tool import Unusable

STACKS = (
    "# goheap stacks 2\n# program\tleaky\n# rate\t1\n"
    "7\tmain.node\truntime.newobject /go/malloc.go:1192\tmain.leak /x/main.go:12\tmain.main /x/main.go:20\n"
    "26\t\truntime.makeslice /go/slice.go:103\tmain.waste /x/waste.go:5\tmain.main /x/main.go:21\n"
)
HEAP = "heap profile: 3: 3024 [9: 5144] @ heap/2\n1: 3000 [1: 3000] @ 0x1a\n1: 16 [1: 16] @ 0x7\n1: 8 [5: 40] @ 0x7\n0: 0 [2: 2088] @ 0x1a\n"


def fields(data):
    """The fields of a message: their numbers, and a number or bytes each."""
    at = 0

    def varint():
        nonlocal at
        value = shift = 0
        while True:
            byte = data[at]
            at += 1
            value |= (byte & 0x7F) << shift
            if byte < 0x80:
                return value
            shift += 7

    while at < len(data):
        key = varint()
        if key & 7 == 0:
            yield key >> 3, varint()
        elif key & 7 == 2:
            size = varint()
            yield key >> 3, data[at : at + size]
            at += size
        else:
            raise ValueError(f"wire type {key & 7}")


def numbers(data):
    """Packed numbers."""
    value = shift = 0
    for byte in data:
        value |= (byte & 0x7F) << shift
        shift += 7
        if byte < 0x80:
            yield value
            value = shift = 0


class Decoded:
    """A profile, read by the description of its form."""

    def __init__(self, data):
        parts = list(fields(gzip.decompress(data)))
        every = lambda field: [value for number, value in parts if number == field]
        one = lambda message: dict(fields(message))
        self.texts = [text.decode() for text in every(6)]
        self.types = [tuple(self.texts[value] for _, value in fields(kind)) for kind in every(1)]
        functions = {one(f)[1]: (self.texts[one(f)[2]], self.texts[one(f)[4]]) for f in every(5)}
        places = {}
        for location in map(one, every(4)):
            line = one(location[4])
            places[location[1]] = (*functions[line[1]], line.get(2, 0))
        self.samples = []
        for sample in map(one, every(2)):
            label = one(sample[3])
            self.samples.append(([places[place] for place in numbers(sample[1])], list(numbers(sample[2])), self.texts[label[1]], label[3]))
        self.period_type = tuple(self.texts[value] for _, value in fields(every(11)[0]))
        self.period = every(12)[0] if every(12) else 0
        self.default = self.texts[every(14)[0]]
        self.comment = self.texts[every(13)[0]]
        self.mappings = [one(mapping) for mapping in every(3)]

    def sums(self):
        return [sum(values) for values in zip(*(sample[1] for sample in self.samples))] if self.samples else [0] * 4


class Profile(Folder):
    def made(self, heap=HEAP, stacks=STACKS, *words):
        """The profile that the tool makes."""
        path = os.path.join(self.folder.name, "heap.pb.gz")
        self.assertEqual(run("pprof", self.put("stacks", stacks), "-o", path, *words, given=heap), (0, "", ""))
        with open(path, "rb") as file:
            return Decoded(file.read())

    def test_what_is_in_it(self):
        profile = self.made()
        self.assertEqual(profile.types, [("alloc_objects", "count"), ("alloc_space", "bytes"), ("inuse_objects", "count"), ("inuse_space", "bytes")])
        leak = [("main.leak", "/x/main.go", 12), ("main.main", "/x/main.go", 20)]
        waste = [("main.waste", "/x/waste.go", 5), ("main.main", "/x/main.go", 21)]
        wanted = [
            (waste, [1, 3000, 1, 3000], "bytes", 3000),
            (leak, [1, 16, 1, 16], "bytes", 16),
            (leak, [5, 40, 1, 8], "bytes", 8),
            (waste, [2, 2088, 0, 0], "bytes", 1044),
        ]
        self.assertEqual(profile.samples, wanted)
        self.assertEqual((profile.period_type, profile.period, profile.default), (("space", "bytes"), 1, "inuse_space"))
        self.assertEqual([mapping[1] for mapping in profile.mappings], [1])
        self.assertEqual(profile.texts[profile.mappings[0][5]], "leaky")

    def test_the_sums_are_those_of_the_text(self):
        self.assertEqual(self.made().sums(), [9, 5144, 3, 3024])
        large = (1 << 63) - 1
        heap = f"heap profile: {large}: {large} [{large}: {large}] @ heap/2\n{large}: {large} [{large}: {large}] @ 0x7\n"
        self.assertEqual(self.made(heap).sums(), [large] * 4)

    def test_a_rate(self):
        sampled = STACKS.replace("# rate\t1", "# rate\t1000")
        heap = HEAP.replace("heap/2", "heap/2000")
        profile = self.made(heap, sampled)
        self.assertEqual((profile.period, profile.sums()), (1000, [9, 5144, 3, 3024]))
        # 1 / (1 - exp(-3)) is 1.05, 1 / (1 - exp(-0.016)) is 63.0, and 1 / (1 - exp(-0.008)) is 125.5.
        scaled = self.made(heap, sampled, "--scale")
        self.assertEqual([sample[1][2] for sample in scaled.samples], [1, 63, 126, 0])
        self.assertEqual([sample[1][3] for sample in scaled.samples], [3000, 63 * 16, 126 * 8, 0])

    def test_an_empty_text(self):
        self.assertEqual(self.made("heap profile: 0: 0 [0: 0] @ heap/2\n").samples, [])

    def test_what_cannot_be_used(self):
        """One line, a status, and no file."""
        path = os.path.join(self.folder.name, "heap.pb.gz")
        one = "heap profile: 1: 24 [3: 72] @ heap/2\n1: 24 [3: 72] @ 0x7\n"
        for heap, why in (
            ("", "standard input: there is nothing in it"),
            ("x\n", "standard input: line 1: no first line of a heap text"),
            ("goheap 1\n", "standard input: this is a trace, and no heap text (goheap heap makes one of a trace and its report)"),
            (one.replace("heap/2", "heap/3"), "standard input: line 1: no first line of a heap text"),
            (one.replace("heap/2", "heap/2147483650"), "standard input: line 1: no first line of a heap text"),
            (one.replace("profile: 1: 24", "profile: 1: 25"), "standard input: line 1: its sums are not those of the lines"),
            (one.replace("\n1: 24 [3: 72]", "\n1: 24 [3: 73]"), "standard input: line 2: no line of a heap text"),
            (one.replace("\n1: 24", "\n4: 96"), "standard input: line 2: no line of a heap text"),
            (one.replace("0x7", "0x07"), "standard input: line 2: no line of a heap text"),
            (one.replace("0x7", "0x100000000"), "standard input: line 2: no line of a heap text"),
            (one.rstrip(), "standard input: line 2: no line of a heap text"),
            (one + "2: 48 [2: 48] @ 0x7\n", "standard input: line 3: no line of a heap text"),
            (one.replace("0x7", "0x8"), "line 2 of the heap text is of stack 8, which the stacks do not have: they are of another recording"),
            (one.replace("heap/2", "heap/4"), "the stacks are of a recording at rate 1, and the heap text of one at rate 2"),
        ):
            status, said, fault = run("pprof", self.put("stacks", STACKS), "-o", path, given=heap)
            self.assertEqual((status, said, fault), (2, "", f"pprof: {why}\n"))
            self.assertFalse(os.path.exists(path))
        status, said, fault = run("pprof", self.put("stacks", "no stacks\n"), given=one)
        self.assertEqual((status, said), (2, ""))
        self.assertEqual(run("pprof", "-", given=one)[:2], (2, ""))

    def test_the_text_is_read_as_goheap_does(self):
        heap = heaptext.read_heap(HEAP.splitlines(True))
        self.assertEqual((heap.rate, heap.sums), (1, (3, 3024, 9, 5144)))
        self.assertEqual([(bucket.stack, bucket.slot) for bucket in heap.buckets], [(26, 3000), (7, 16), (7, 8), (26, 1044)])
        with self.assertRaises(Unusable):
            heaptext.read_heap(["heap profile: 0: 0 [0: 0] @ heap/2\r\n"])


class Tool(Folder):
    """What `go tool pprof` reads."""

    def read_by_go(self, path, *words):
        go = go_command()
        if go is None:
            self.skipTest("no Go 1.19 to 1.21 was found")
        env = {**os.environ, "HOME": self.folder.name, "PPROF_TMPDIR": self.folder.name}
        return subprocess.run([go, "tool", "pprof", *words, path], env=env, capture_output=True, text=True, check=True).stdout

    def pprof(self, *words):
        path = os.path.join(self.folder.name, "heap.pb.gz")
        self.assertEqual(run("pprof", self.put("stacks", STACKS), "-o", path, given=HEAP), (0, "", ""))
        return self.read_by_go(path, *words)

    def samples(self, raw):
        """The values of each sample, and its slot size."""
        found = re.findall(r"^ +(\d+) +(\d+) +(\d+) +(\d+): ([\d ]+)\n +bytes:\[(\d+)\]", raw, re.M)
        return [[*map(int, sample[:4]), int(sample[5])] for sample in found]

    def test_the_text_itself(self):
        """The text opens as it is, with the stacks' numbers where pprof has addresses."""
        raw = self.read_by_go(self.put("heap.txt", HEAP), "-raw")
        self.assertIn("PeriodType: space bytes\nPeriod: 1\n", raw)
        self.assertEqual(self.samples(raw), [[1, 3000, 1, 3000, 3000], [1, 16, 1, 16, 16], [5, 40, 1, 8, 8], [2, 2088, 0, 0, 1044]])

    def test_raw(self):
        raw = self.pprof("-raw")
        self.assertIn("PeriodType: space bytes\nPeriod: 1\n", raw)
        self.assertEqual(self.samples(raw), [[1, 3000, 1, 3000, 3000], [1, 16, 1, 16, 16], [5, 40, 1, 8, 8], [2, 2088, 0, 0, 1044]])
        self.assertRegex(raw, r"main\.leak /x/main\.go:12 s=0")
        self.assertIn("inuse_space/bytes", raw)

    def test_top(self):
        top = self.pprof("-top", "-unit=B", "-nodefraction=0")
        self.assertRegex(top, r"3000B\s+99\.21%\s+99\.21%\s+3000B\s+99\.21%\s+main\.waste")
        self.assertRegex(top, r"24B\s+0\.79%\s+100%\s+24B\s+0\.79%\s+main\.leak")
        self.assertRegex(self.pprof("-top", "-sample_index=alloc_objects"), r"6\s+66\.67%\s+66\.67%\s+6\s+66\.67%\s+main\.leak")


if __name__ == "__main__":
    unittest.main()
