"""Tests of `pins`: each number is counted a second time, slowly, as its definition reads; and on heaps of known shape it is known by hand."""

import csv
import glob
import os
import random
import subprocess
import sys
import unittest
import xml.dom.minidom

from goheap_tools.formats import report, traces
from goheap_tools.formats.journal import Cut, Drop, Give, Miss, Pull, Scav, Take, end_of
from goheap_tools.formats.frames import name_of, shown_frames
from goheap_tools.heap.classes import BASE, PAGE, SLOTS
from goheap_tools.tests.test_program import go_command
from goheap_tools.tests.testing import HERE, Folder, data, path_of, rows, run

EXAMPLES = os.path.join(HERE, "..", "examples")


def modelled(trace, *words):
    """The report that the plain model, which agrees with goheap, makes of a trace's text."""
    return subprocess.run([sys.executable, os.path.join(HERE, "..", "model", "run.py"), *words], input=trace, capture_output=True, text=True, check=True).stdout


class Slow:
    """The heap at a mark end by the definitions: pages one by one, slots one by one, and whoever is gone, all is counted anew."""

    def __init__(self, trace, report_of, mark_end):
        self.trace, self.report, self.mark_end = trace, report_of, mark_end
        self.page = {}  # of each page that was ever in a span or a page cache: "free", "scavenged" or "cached", or the number of the line that made its span
        for number, line in enumerate(report_of.journal):
            if line.cycle >= mark_end or isinstance(line, Miss):
                continue
            state = {Take: number, Cut: number, Give: "free", Scav: "scavenged", Pull: "cached", Drop: "free"}[type(line)]
            for page in range(line.page, end_of(line)):
                if isinstance(line, Pull) and isinstance(self.page.get(page), int) or isinstance(line, Drop) and self.page[page] != "cached":
                    continue
                self.page[page] = state
        assert "cached" not in self.page.values()
        self.backed = sum(state != "scavenged" for state in self.page.values())
        self.marked = list(trace.marked(mark_end))
        self.seats = {}  # the objects at each place, of which tiny ones may share one: the line that made the span, and the index
        self.missed = [one for one in self.marked if report_of.addresses[one] == report.MISSED]
        for one in self.marked:
            if report_of.addresses[one] >= BASE:
                place = self.place(one, report_of.addresses[one])
                assert place not in self.seats or self.is_tiny(one)
                self.seats.setdefault(place, []).append(one)

    def is_tiny(self, one):
        return self.trace.version == 3 and self.trace.events[one].size < 16 and not self.trace.events[one].has_pointers

    def place(self, one, address):
        line = self.page[(address - BASE) // PAGE]
        index, rest = divmod(address - BASE - self.report.journal[line].page * PAGE, self.slot(line))
        assert (rest == 0 or self.is_tiny(one)) and index < self.slots(line)
        return line, index

    def size(self, seat):
        """The bytes of the live objects at a place."""
        return sum(self.trace.events[one].size for one in self.seats[seat])

    def slot(self, line):
        taken = self.report.journal[line]
        return SLOTS[taken.span_class // 2] if taken.span_class > 1 else taken.pages * PAGE

    def slots(self, line):
        return self.report.journal[line].pages * PAGE // self.slot(line)

    def pages(self, line):
        return self.report.journal[line].pages

    def kept(self, gone=()):
        """The spans that are kept where the objects of these stacks are gone."""
        return {line for (line, _), objects in self.seats.items() if any(self.trace.events[one].stack not in gone for one in objects)}

    def free(self, gone=()):
        """The pages in no kept span, up to the highest that was ever in one."""
        kept = self.kept(gone)
        return [page for page in range(max(self.page, default=-1) + 1) if self.page.get(page) not in kept]

    def sums(self):
        parts = dict.fromkeys(("live objects", "free slots", "rounding", "tails", "free pages"), 0)
        kept = self.kept()
        for line in kept:
            for index in range(self.slots(line)):
                if (line, index) in self.seats:
                    size = self.size((line, index))
                    parts["live objects"] += size
                    parts["rounding"] += self.slot(line) - size
                else:
                    parts["free slots"] += self.slot(line)
            parts["tails"] += self.pages(line) * PAGE - self.slots(line) * self.slot(line)
        parts["free pages"] = PAGE * sum(state != "scavenged" and state not in kept for state in self.page.values())
        return parts

    def classes(self):
        found = {}
        for line in self.kept():
            taken, used = self.report.journal[line], sum((line, index) in self.seats for index in range(self.slots(line)))
            row = found.setdefault(SLOTS[taken.span_class // 2] or "large", [0, 0, 0, *[0] * 8, 0, 0, 0, 0])
            eighth = next(eighth for eighth in range(1, 9) if used / self.slots(line) <= eighth / 8)
            filled = [(line, index) for index in range(self.slots(line)) if (line, index) in self.seats]
            live = sum(map(self.size, filled))
            more = [1, taken.pages, sum(len(self.seats[seat]) for seat in filled), *(int(step == eighth) for step in range(1, 9)), live, (self.slots(line) - used) * self.slot(line),
                    used * self.slot(line) - live, taken.pages * PAGE - self.slots(line) * self.slot(line)]  # fmt: skip
            found[SLOTS[taken.span_class // 2] or "large"] = [a + b for a, b in zip(row, more)]
        return found

    def live(self, stacks):
        """The live objects of these stacks."""
        return [one for objects in self.seats.values() for one in objects if self.trace.events[one].stack in stacks]

    def own(self, stacks):
        return sum(self.trace.events[one].size for one in self.live(stacks))

    def pinned(self, stacks):
        """The spans that go back where the objects of these stacks are gone."""
        return self.kept() - self.kept(stacks)

    def bytes_of(self, spans):
        return PAGE * sum(map(self.pages, spans))

    def shared(self, stacks):
        """The spans with objects of these stacks and of others."""
        others = {event.stack for event in self.trace.events} - set(stacks)
        return self.kept(others) & self.kept(stacks)

    def live_stacks(self):
        return {self.trace.events[one].stack for objects in self.seats.values() for one in objects}

    def run(self, gone, with_back=False):
        """The longest run of free pages where the objects of these stacks are gone; the longest with a page that is not free now."""
        free, now = set(self.free(gone)), set(self.free())
        longest = 0
        for begin in free:
            if begin - 1 not in free:
                end = begin
                while end in free:
                    end += 1
                if not with_back or set(range(begin, end)) - now:
                    longest = max(longest, end - begin)
        return longest


def made(seed, version=1):
    """A trace of many kinds of objects, that die young or live on in runs and one by one; one region in two runs full."""
    some = random.Random(seed)
    chunks, procs = some.choice((1, 1, 3)), some.choice((1, 1, 2, 4))
    lines = [f"goheap {version}", f"heap {chunks} procs {procs} rate 0 seed 1 goal {some.choice((64, 200, 512 * chunks))}"]
    sizes = [some.choice((0, 1, 7, 8, 24, 40, 100, 500, 1000, 1500, 5000, 9000, 20000, 32768, 32769, 60000, 300000)) for _ in range(6)]
    live, count = [], 0
    for _ in range(some.randint(1, 5)):
        for _ in range(some.randint(0, 220)):
            lines.append(f"a {some.randrange(procs)} {max(some.choice(sizes) - some.randrange(3), 0)} {some.choice('sn')} {some.randrange(7)}")
            live.append(count)
            count += 1
        share = some.choice((0, 0.05, 0.3, 1))
        live = [one for one in live if some.random() < share]
        lines.append("gc 100000")
        at = 0
        while at < len(live):
            end = at
            while end + 1 < len(live) and live[end + 1] == live[end] + 1:
                end += 1
            lines.append(f"m {live[at]} {live[end]}")
            at = end + 1
    lines.extend(f"a 0 64 n {some.randrange(7)}" for _ in range(some.randrange(3)))
    return "\n".join(lines) + "\nend\n"


# Frames of stacks 0 to 6; 2 and 5 are the same, and 6 has none.
FRAMES = {
    0: ["runtime.mallocgc m.go:1", "main.a a.go:1", "main.main a.go:9"],
    1: ["runtime.mallocgc m.go:1", "main.a a.go:2", "main.b a.go:3", "main.main a.go:9"],
    2: ["main.b a.go:4", "main.main a.go:9"],
    3: ["main.c a.go:5", "main.b a.go:6", "main.main a.go:9"],
    4: ["runtime.mallocgc m.go:1", "runtime.bgsweep m.go:2"],
    5: ["main.b a.go:4", "main.main a.go:9"],
}


def tables_of(text):
    """The rows of each table of the CSV by the table's name, the row of titles first; whole numbers as numbers."""
    tables = {}
    for name, *row in csv.reader(text.splitlines()):
        tables.setdefault(name, []).append([int(field) if field.isdecimal() else field for field in row])
    return tables


class PinsCounted(Folder):
    """What `pins` prints is what the slow count finds, to the byte."""

    def tables(self, *words):
        status, said, fault = run("pins", *words, "--csv")
        self.assertEqual((status, fault), (0, ""), words)
        return tables_of(said)

    def compare(self, trace_path, report_path):
        trace, report_of = traces.trace_in(trace_path), report.report_in(report_path)
        slows = [Slow(trace, report_of, mark_end) for mark_end in range(1, trace.mark_ends + 1)]
        for slow in slows:
            words = [trace_path, report_path, "--at", str(slow.mark_end)]
            tables = self.tables(*words)
            self.compare_sum(slow, tables["sum"])
            found = {row[0]: row[1:] for row in tables["class"][1:]}
            self.assertEqual(found, slow.classes())
            self.assertEqual(tables["stack"][0], ["number", "own", "pinned", "spans", "shared", "objects", "frames"])
            self.compare_stacks(slow, tables["stack"][1:], {stack: {stack} for stack in slow.live_stacks()})
            self.compare_what_if(slow, words)
            self.compare_with_frames(slow, words)
        most = max(slow.backed for slow in slows)
        first = next(slow for slow in slows if slow.backed == most)
        self.assertEqual(self.tables(trace_path, report_path, "--peak"), self.tables(trace_path, report_path, "--at", str(first.mark_end)))
        self.assertEqual(self.tables(trace_path, report_path), self.tables(trace_path, report_path, "--at", str(len(slows))))
        return slows

    def compare_sum(self, slow, table):
        parts = slow.sums()
        self.assertEqual(sum(parts.values()), slow.backed * PAGE)
        missed = sum(slow.trace.events[one].size for one in slow.missed)
        self.assertEqual(table, [["part", "bytes"], *map(list, parts.items()), ["backed", slow.backed * PAGE], ["not placed", missed]])

    def compare_stacks(self, slow, table, groups):
        """`groups` has the stacks that are one row, by the row's number."""
        self.assertEqual({row[0] for row in table}, set(groups))
        for number, own, pinned, spans, shared, objects, _ in table:
            stacks = groups[number]
            expected = slow.own(stacks), slow.bytes_of(slow.pinned(stacks)), len(slow.pinned(stacks)), slow.bytes_of(slow.shared(stacks)), len(slow.live(stacks))
            self.assertEqual((own, pinned, spans, shared, objects), expected, number)
        self.assertEqual([row[:3] for row in table], sorted((row[:3] for row in table), key=lambda row: (-row[2], -row[1], row[0])))

    def compare_what_if(self, slow, words):
        stacks = sorted({event.stack for event in slow.trace.events})
        for gone in [stacks[:1], stacks[1:3], stacks]:
            if not gone:
                continue
            back = slow.pinned(gone)
            expected = [len(slow.live(gone)), slow.own(gone), len(back), sum(map(slow.pages, back)), slow.run(gone, True), slow.run(gone), slow.run(())]
            self.assertEqual(self.tables(*words, "--without", *map(str, gone))["without"][1][1:], expected)

    def compare_with_frames(self, slow, words):
        words = [*words, "--stacks", self.put("stacks", "".join(f"{number}\t" + "\t".join(frames) + "\n" for number, frames in FRAMES.items()))]
        live = slow.live_stacks()
        groups = {min(live & {2, 5}) if stack in (2, 5) else stack: {2, 5} if stack in (2, 5) else {stack} for stack in live}
        self.compare_stacks(slow, self.tables(*words)["stack"][1:], groups)
        names = {stack: list(map(name_of, shown_frames(FRAMES.get(stack, [])))) for stack in live}
        expected = {}
        for name in set().union(*names.values()):
            flat = {stack for stack in live if names[stack][0] == name}
            cum = {stack for stack in live if name in names[stack]}
            pinned = slow.pinned(flat) if flat else set()
            expected[name] = [slow.own(flat), slow.bytes_of(pinned), len(pinned), slow.own(cum), slow.bytes_of(slow.pinned(cum))]
        for option, order in ((), (2, 5)), (("--cum",), (5, 2)):
            table = self.tables(*words, "--functions", *option)["function"]
            self.assertEqual({row[0]: row[1:] for row in table[1:]}, expected)
            self.assertEqual(table[1:], sorted(table[1:], key=lambda row: [-row[at] for at in (*order, 4)] + [row[0]]))
        if any("main.b" in frames for frames in names.values()):
            gone = {stack for stack in live if "main.b" in names[stack]} | ({4} & live)
            back = slow.pinned(gone)
            self.assertEqual(self.tables(*words, "--without", "main.b", "4")["without"][1][1:5], [len(slow.live(gone)), slow.own(gone), len(back), sum(map(slow.pages, back))])

    def test_the_examples(self):
        seen = 0
        for path in sorted(glob.glob(os.path.join(EXAMPLES, "*.trace"))):
            if traces.trace_in(path).mark_ends:
                seen += len(self.compare(path, path.replace(".trace", ".report")))
        self.assertGreater(seen, 10)

    def test_made_heaps(self):
        seen = {"missed": 0, "spans": 0, "scavenged": 0, "shared": 0, "emptied": 0, "peak": 0}
        for seed in range(12):
            trace = made(seed, seed % 3 + 1)
            slows = self.compare(self.put("trace", trace), self.put("report", modelled(trace, "--background=" + str(seed // 3 % 3))))
            seen["missed"] += sum(len(slow.missed) for slow in slows)
            seen["spans"] += sum(len(slow.kept()) for slow in slows)
            seen["scavenged"] += sum(state == "scavenged" for slow in slows for state in slow.page.values())
            seen["shared"] += sum(len(slow.shared({stack})) for slow in slows for stack in slow.live_stacks())
            seen["emptied"] += sum(isinstance(state, int) and state not in slow.kept() for slow in slows for state in slow.page.values())
            seen["peak"] += max(slow.backed for slow in slows) > slows[-1].backed
        self.assertTrue(all(seen.values()), seen)


def trace_of(*lines):
    return "goheap 1\nheap 2 procs 1 rate 0 seed 1 goal 1024\n" + "\n".join(lines) + "\nend\n"


class PinsByHand(Folder):
    """Heaps whose numbers are worked out by hand."""

    def pins(self, trace, *words):
        self.trace, self.report = self.put("trace", trace), self.put("report", modelled(trace))
        return self.again(*words)

    def again(self, *words):
        status, said, fault = run("pins", self.trace, self.report, *words)
        self.assertEqual((status, fault), (0, ""))
        return said

    def test_one_survivor_in_sixteen(self):
        # Slots of 512 bytes, 16 a page: each of 100 pages keeps the first of its objects, of stack 7; those of stack 8 die. Stack 9 is one
        # object of 40000 bytes on 5 pages, and one that dies on 5 more.
        objects = [f"a 0 500 n {7 if one % 16 == 0 else 8}" for one in range(1600)] + ["a 0 40000 n 9", "a 0 40000 n 9"]
        said = self.pins(trace_of(*objects, "gc 1000", *(f"m {one} {one}" for one in range(0, 1600, 16)), "m 1600 1600"), "--csv", "--without", "7")
        tables = tables_of(said)
        self.assertEqual(dict(tables["sum"][1:]), {
            "live objects": 100 * 500 + 40000, "free slots": 100 * 15 * 512, "rounding": 100 * 12 + 960, "tails": 0,
            "free pages": 5 * PAGE, "backed": 110 * PAGE, "not placed": 0,
        })  # fmt: skip
        self.assertEqual(tables["class"][1:], [["large", 1, 5, 1, 0, 0, 0, 0, 0, 0, 0, 1, 40000, 0, 960, 0], [512, 100, 100, 100, 100, 0, 0, 0, 0, 0, 0, 0, 50000, 768000, 1200, 0]])
        self.assertEqual(tables["stack"][1:], [[7, 50000, 100 * PAGE, 100, 0, 100, "(no frames)"], [9, 40000, 5 * PAGE, 1, 0, 1, "(no frames)"]])
        # Pages 0 to 99 come back, before the large object's five and the five that are free.
        self.assertEqual(tables["without"][1], [7, 100, 50000, 100, 100, 100, 100, 5])
        found = self.again("--without", "7").splitlines()
        self.assertEqual(found[0], "Mark end 1 of 1: 110 pages backed, 105 of them in 101 spans kept")
        self.assertIn("       90,000  10.0%  live objects, as asked for", found)
        self.assertIn("      768,000  85.2%  free slots in kept spans", found)
        self.assertIn("      901,120 100.0%  backed; in Go's words HeapInuse 860,160, HeapIdle less HeapReleased 40,960", found)
        self.assertIn("  100 spans of 100 pages (819,200 bytes) would come back", found)
        self.assertEqual(found[-2].split(), "50,000 55.6% 819,200 90.9% 16.4 100 0 100 7 (no frames)".split())

    def test_a_map_that_was_large_once(self):
        # The map's buckets, 1000000 bytes on 123 pages of stack 1, stay; of the values of 64 bytes, 128 a page on 32 pages, each 64th does,
        # those of stack 2 and of stack 3 in turns, so that each page has one of both: neither pins a page, together they pin all 32.
        values = [f"a 0 64 s {2 + one // 64 % 2}" for one in range(4096)]
        trace = trace_of("a 0 1000000 s 1", *values, "gc 1000", "m 0 0", *(f"m {one} {one}" for one in range(1, 4097, 64)))
        tables = tables_of(self.pins(trace, "--csv", "--without", "2", "3"))
        self.assertEqual(dict(tables["sum"][1:]), {
            "live objects": 1000000 + 64 * 64, "free slots": 32 * 126 * 64, "rounding": 123 * PAGE - 1000000, "tails": 0,
            "free pages": 0, "backed": 155 * PAGE, "not placed": 0,
        })  # fmt: skip
        self.assertEqual([row[:6] for row in tables["stack"][1:]], [[1, 1000000, 123 * PAGE, 1, 0, 1], [2, 2048, 0, 0, 32 * PAGE, 32], [3, 2048, 0, 0, 32 * PAGE, 32]])
        self.assertEqual(tables["without"][1], ["2 3", 64, 4096, 32, 32, 32, 32, 0])
        self.assertEqual(tables_of(self.again("--csv", "--without", "2"))["without"][1], [2, 32, 2048, 0, 0, 0, 0, 0])
        # As one function they do pin them.
        stacks = self.put("stacks", "1\tmain.make m.go:1\n2\tmain.put m.go:2\tmain.main m.go:9\n3\tmain.put m.go:3\tmain.main m.go:9\n")
        table = tables_of(self.again("--csv", "--functions", "--stacks", stacks))["function"]
        self.assertEqual(table[1:], [["main.make", 1000000, 123 * PAGE, 1, 1000000, 123 * PAGE], ["main.put", 4096, 32 * PAGE, 32, 4096, 32 * PAGE], ["main.main", 0, 0, 0, 4096, 32 * PAGE]])

    def test_a_healthy_heap(self):
        # 80 objects of 1024 bytes fill 10 pages; a buffer of 5 pages dies at each mark end, and its pages are taken again.
        trace = trace_of(*["a 0 1024 s 4"] * 80, "a 0 40960 n 5", "gc 1000", "m 0 79", "a 0 40960 n 5", "gc 1000", "m 0 79")
        for words in ((), ("--peak",), ("--at", "1")):
            tables = tables_of(self.pins(trace, "--csv", *words))
            self.assertEqual(dict(tables["sum"][1:]), {
                "live objects": 80 * 1024, "free slots": 0, "rounding": 0, "tails": 0, "free pages": 5 * PAGE, "backed": 15 * PAGE, "not placed": 0,
            })  # fmt: skip
            self.assertEqual(tables["class"][1:], [[1024, 10, 10, 80, 0, 0, 0, 0, 0, 0, 0, 10, 81920, 0, 0, 0]])
            self.assertEqual(tables["stack"][1:], [[4, 81920, 10 * PAGE, 10, 0, 80, "(no frames)"]])
        self.assertIn("Mark end 1 of 2: 15 pages backed, 10 of them in 10 spans kept; 1 object came behind it", self.again("--peak"))

    def test_the_peak_is_the_first_of_the_most(self):
        # 10 pages at mark end 1, 5 of which the scavenger takes behind it; 10 again at mark end 3.
        large = "a 0 40960 n 1"
        trace = trace_of(large, large, "gc 1000", "m 0 0", "gc 1000", "m 0 0", large, "gc 1000", "m 0 0").replace("goal 1024", "goal 5")
        found = [self.pins(trace, *words).splitlines()[0].partition(",")[0] for words in (("--at", "1"), ("--at", "2"), ("--at", "3"), ("--peak",))]
        self.assertEqual(found, ["Mark end 1 of 3: 10 pages backed", "Mark end 2 of 3: 5 pages backed", "Mark end 3 of 3: 10 pages backed", "Mark end 1 of 3: 10 pages backed"])

    def test_what_found_no_room(self):
        # A region of 1024 pages has no room for a second object of 600.
        trace = trace_of("a 0 4915200 n 1", "a 0 4915200 n 1", "a 0 0 n 1", "gc 1000", "m 0 2")
        said = self.pins(trace)
        self.assertIn("1 live object of 4,915,200 bytes found no room: they are in none of these numbers", said)
        self.assertIn(["not placed", 4915200], tables_of(self.again("--csv"))["sum"])


PROGRAM = """package main

import (
\t"os"
\t"runtime"
)

var kept [][]byte
var table = map[int]*[64]byte{}

//go:noinline
func buffer() []byte { return make([]byte, 512) }

//go:noinline
func value() *[64]byte { return new([64]byte) }

//go:noinline
func put(key int) { table[key] = value() }

//go:noinline
func sixteenth() {
\tall := make([][]byte, 1600)
\tfor i := range all {
\t\tall[i] = buffer()
\t}
\tfor i := 0; i < len(all); i += 16 {
\t\tkept = append(kept, all[i])
\t}
}

//go:noinline
func large() {
\tfor i := 0; i < 4096; i++ {
\t\tput(i)
\t}
\tfor i := 0; i < 4096; i++ {
\t\tif i%64 != 0 {
\t\t\tdelete(table, i)
\t\t}
\t}
}

//go:noinline
func healthy() {
\tkept = make([][]byte, 0, 1600)
\tfor i := 0; i < 1600; i++ {
\t\tkept = append(kept, buffer())
\t}
}

func main() {
\tswitch os.Args[1] {
\tcase "sixteenth":
\t\tsixteenth()
\tcase "large":
\t\tlarge()
\tcase "healthy":
\t\thealthy()
\t}
\truntime.GC()
\truntime.KeepAlive(kept)
\truntime.KeepAlive(table)
}
"""


class PinsOfPrograms(Folder):
    """Three programs whose shape is known, recorded where there is a Go toolchain, with the report of the plain model."""

    def setUp(self):
        super().setUp()
        go = go_command()
        if go is None:
            self.skipTest("no Go 1.19 to 1.21 was found")
        folder = self.folder.name
        self.put("main.go", PROGRAM)
        self.put("go.mod", "module shapes\n\ngo 1.19\n")
        self.env = {**os.environ, "GOCACHE": os.path.join(folder, "cache"), "GOFLAGS": "-mod=mod", "HOME": folder, "GOMAXPROCS": "1", "GOGC": "off"}
        subprocess.run([go, "build", "-o", "shapes", "."], cwd=folder, env=self.env, check=True, capture_output=True)

    def functions(self, name):
        """The row of each function at the program's last collection."""
        folder = self.folder.name
        ran = subprocess.run(["./shapes", name], cwd=folder, env={**self.env, "GODEBUG": "allocfreetrace=1"}, capture_output=True, text=True)
        log, stacks, trace = self.put("log", ran.stderr), os.path.join(folder, "stacks"), os.path.join(folder, "trace")
        status, _, said = run("record", log, "--program", os.path.join(folder, "shapes"), "--stacks", stacks, "--output", trace, "--keep-last")
        self.assertEqual(status, 0, said)
        with open(trace) as file:
            found = modelled(file.read())
        status, said, fault = run("pins", trace, self.put("report", found), "--stacks", stacks, "--functions", "--csv")
        self.assertEqual((status, fault), (0, ""))
        return {row[0]: dict(zip(("own", "pinned", "spans", "cum own", "cum pinned"), row[1:])) for row in tables_of(said)["function"][1:]}

    def test_one_survivor_in_sixteen(self):
        # 100 buffers of 512 bytes, 16 slots apart, on 100 pages; the first and the last page may have others' objects too.
        row = self.functions("sixteenth")["main.buffer"]
        self.assertEqual(row["own"], 100 * 512)
        self.assertIn(row["pinned"] // PAGE, (98, 99, 100))

    def test_a_map_that_was_large_once(self):
        # 64 values of 64 bytes, 64 slots apart, 128 a page. The map grew to 1024 buckets of 144 bytes and 64 for those that overflow, together
        # rounded up to whole pages and down to whole buckets, and never shrinks: 163,728 bytes on 20 pages; and 24 bytes on what overflows.
        rows = self.functions("large")
        self.assertEqual(rows["main.value"]["own"], 64 * 64)
        self.assertIn(rows["main.value"]["pinned"] // PAGE, (30, 31, 32, 33))
        self.assertEqual(rows["main.put"]["own"], 163728 + 24)
        self.assertIn(rows["main.put"]["pinned"] // PAGE, (20, 21))

    def test_a_healthy_heap(self):
        # 1600 buffers fill 100 pages, or 101 where they do not begin with one; the list of them is 38400 bytes on 5 pages.
        rows = self.functions("healthy")
        self.assertEqual((rows["main.buffer"]["own"], rows["main.healthy"]["own"]), (1600 * 512, 1600 * 24))
        self.assertIn(rows["main.buffer"]["pinned"] // PAGE, (98, 99, 100, 101))
        self.assertEqual(rows["main.healthy"]["pinned"], 5 * PAGE)


class PinsFaults(Folder):
    """What `pins` says of what it cannot use: one line, status 2, and nothing on standard output."""

    def test_what_cannot_be_used(self):
        trace, report_of = os.path.join(EXAMPLES, "leak.trace"), os.path.join(EXAMPLES, "leak.report")
        other, other_report = os.path.join(EXAMPLES, "fragments.trace"), os.path.join(EXAMPLES, "fragments.report")
        without = os.path.join(EXAMPLES, "next-span.trace")
        with open(report_of) as file:
            good = file.read()
        head = "goheap 1\nheap 1 procs 1 rate 0 seed 1 goal 512\n"

        def report(text):
            return self.put("report", text), "report"

        for words, said in (
            (["no such trace", report_of], "no such trace: No such file or directory"),
            ([trace, "no such report"], "no such report: No such file or directory"),
            ([trace, report_of, "--stacks", report_of], f"{report_of}: this is a report, and no stacks file"),
            ([report_of, trace], f"{report_of}: this is a report, and no trace"),
            ([trace, trace], f"{trace}: this is a trace, and no report (goheap run --each < trace > report)"),
            ([trace, path_of("small.stacks")], f"{path_of('small.stacks')}: line 1: no line of a report"),
            ([trace, HERE], f"{HERE}: Is a directory"),
            ([without, report_of], f"{without} has no mark end, at which it would be known who lives"),
            ([trace, other_report], f"{other_report} has 5 objects, and {trace} has 9: it is no report of this trace"),
            ([trace, report_of, "--at", "4"], f"{trace} has 3 mark ends, and no mark end 4"),
            ([trace, report_of, "--without", "main.f"], "'main.f' is no stack's number; functions need --stacks"),
            ([trace, report_of, "--stacks", path_of("small.stacks"), "--without", "main.f"], "'main.f' is no stack's number, and no stack has a function of this name"),
        ):
            self.assertEqual(run("pins", *words), (2, "", f"pins: {said}\n"))
        for text, why in (
            ("", "no trace: its first line is none of `goheap 1`, `goheap 2`, `goheap 3` and `goheap 4`"),
            ("goheap 1\n", "line 2: no second line of a trace"),
            (head, "the trace has no end"),
            (head + "a 0 8 n 1\n", "the trace has no end"),
            (head + "a 0 8 n 1\nend", "line 4: no line of a trace"),
            (head + "a 0 8 n 1\na 0 8 x 1\nend\n", "line 4: no line of a trace"),
            (head + "a 0 8 n 1\na 0  8 n 1\nend\n", "line 4: no line of a trace"),
            (head + "m 0 0\nend\n", "line 3: marks before the first mark end"),
            (head + "a 0 8 n 1\ngc 1\nm 0 1\nend\n", "mark end 1 cannot mark the objects 0 to 1"),
            (head + "a 0 8 n 1\ngc 1\nm 0 0\nm 0 0\nend\n", "mark end 1 cannot mark the objects 0 to 0"),
            (head + "end\nend\n", "line 4: there are lines behind the end"),
        ):
            path = self.put("faulty", text)
            status, out, said = run("pins", path, self.put("report", "o 0 0xc000000000\nj 0 0 take 0 1 3\ns 1 0 1 0\nend\n"))
            self.assertEqual((status, out), (2, ""), text)
            self.assertIn(f"{path}: {why}" if not why.startswith("no trace") else why, said)
        for old, new, why in (
            ("end\n", "", "the report has no end"),
            ("end\n", "end", "line 25: no line of a report"),
            ("o 3 ", "o 4 ", "line 4: this is not the line of object 3"),
            ("o 0 ", "o 1 ", "line 1: this is not the line of object 0"),
            ("j 2 ", "j 3 ", "line 12: this is not line 2 of the journal"),
            ("j 1 0 take 1 1 7", "j 1 0 take 0 1 7", "line 11: no such span can be made here"),
            ("j 1 0 take 1 1 7", "j 1 0 take 2097152 1 7", "line 11: a region has 2097152 pages at most"),
            ("j 1 0 take 1 1 7", "j 1 0 take 1 1 136", "line 11: no such span can be made here"),
            ("give 0 1", "give 0 2", "line 12: no such span is there to give back"),
            ("give 0 1", "scav 0 1", "line 12: these pages are not free and backed"),
            ("s 3 1 3 0", "s 3 1 2 1", f"says of the span at page 1 that mark end 3 kept 2, and by {trace} it kept 3: it is no report of this trace"),
            ("s 3 1 3 0\n", "", f"says of the span at page 1 that mark end 3 kept no sweep, and by {trace} it kept 3: it is no report of this trace"),
            ("s 3 1 3 0\n", "s 3 1 3 0\ns 3 7 1 0\n", "mark end 3 swept a span that is not there"),
            ("s 3 1 3 0\n", "s 3 1 3 0\nj 9 3 give 1 1\n", "no line of a report may stand here"),
            ("o 2 0xc000002000", "o 2 0xc000009000", "object 2 lives at mark end 3, but in no span: it is no report of this trace"),
        ):
            self.assertIn(old, good)
            path = self.put("report", good.replace(old, new, 1))
            status, out, said = run("pins", trace, path)
            self.assertEqual((status, out, said.count("\n")), (2, "", 1), (new, said))
            self.assertIn(why, said)

    def test_stacks_of_another_recording(self):
        trace, report_of = os.path.join(EXAMPLES, "leak.trace"), os.path.join(EXAMPLES, "leak.report")
        header = {"objects": "9", "mark ends": "3", "slots": "24:3 1024:6"}
        for name, value, why in (
            ("", "", None),
            ("objects", "8", "9 objects, and by the stacks 8"),
            ("mark ends", "4", "3 mark ends, and by the stacks 4"),
            ("slots", "24:4 1024:5", "the objects have other sizes"),
        ):
            stacks = self.put("stacks", "# goheap stacks 2\n" + "".join(f"# {key}\t{value if key == name else of}\n" for key, of in header.items()))
            status, out, said = run("pins", trace, report_of, "--stacks", stacks)
            self.assertEqual((status, said), (2, f"pins: {trace} and {stacks} are of two recordings: {why}\n") if why else (0, ""))
            self.assertEqual(out == "", why is not None)

    def test_written_whole_or_not_at_all(self):
        trace, report_of = os.path.join(EXAMPLES, "leak.trace"), os.path.join(EXAMPLES, "leak.report")
        path = self.put("table", "before\n")
        self.assertEqual(run("pins", trace, report_of, "--at", "4", "-o", path)[0], 2)
        with open(path) as file:
            self.assertEqual(file.read(), "before\n")
        self.assertEqual(run("pins", trace, report_of, "-o", path), (0, "", ""))
        with open(path) as file:
            self.assertEqual(file.read(), run("pins", trace, report_of)[1])
        self.assertEqual(os.listdir(self.folder.name), ["table"])

    def test_marks_that_overlap(self):
        trace = self.put("trace", trace_of("a 0 8 n 1", "a 0 8 n 1", "gc 1", "m 0 1", "m 1 1"))
        report_of = self.put("report", "o 0 0xc000000000\no 1 0xc000000008\nj 0 0 take 0 1 3\ns 1 0 3 0\nend\n")
        self.assertEqual(run("pins", trace, report_of), (2, "", f"pins: {trace}: mark end 1 cannot mark the objects 1 to 1\n"))

    def test_no_room_in_a_span(self):
        # The trace of the report has objects of 24 bytes in the span at page 1.
        with open(os.path.join(EXAMPLES, "leak.trace")) as file:
            trace = self.put("trace", file.read().replace("a 0 24 n 2", "a 0 25 n 2", 1))
        report_of = os.path.join(EXAMPLES, "leak.report")
        said = f"pins: {report_of}: the span at page 1 has no room for its 3 live objects of 73 bytes: it is no report of this trace\n"
        self.assertEqual(run("pins", trace, report_of), (2, "", said))

    def test_strange_words(self):
        trace, report_of = os.path.join(EXAMPLES, "leak.trace"), os.path.join(EXAMPLES, "leak.report")
        for words in ([], [trace], ["-", "-"], [trace, report_of, "--at", "0"], [trace, report_of, "--at", "x"], [trace, report_of, "--at", "1", "--peak"], [trace, report_of, "--functions"],
                      [trace, report_of, "--cum"], [trace, report_of, "--without"], [trace, report_of, "--top", "0"]):  # fmt: skip
            status, out, said = run("pins", *words)
            self.assertEqual((status, out), (2, ""), words)
            self.assertRegex(said, "pins: .*\n$")

    def test_no_room_and_closed_streams(self):
        words = os.path.join(EXAMPLES, "leak.trace"), os.path.join(EXAMPLES, "leak.report")
        with open("/dev/full", "w") as full:
            ran = subprocess.run([os.path.join(HERE, "pins"), *words], stdout=full, stderr=subprocess.PIPE, text=True)
        self.assertEqual(ran.returncode, 2)
        self.assertRegex(ran.stderr, "^pins: .*No space left on device\n$")
        for line, name in ((f"{words[0]} - <&-", "input"), (f"{words[0]} {words[1]} >&-", "output")):
            ran = subprocess.run(["bash", "-c", f"{os.path.join(HERE, 'pins')} {line}"], capture_output=True, text=True)
            self.assertEqual((ran.returncode, ran.stderr), (2, f"pins: standard {name} is closed\n"))

    def test_standard_input(self):
        with open(os.path.join(EXAMPLES, "leak.report")) as file:
            given = file.read()
        words = os.path.join(EXAMPLES, "leak.trace"), "--csv"
        self.assertEqual(run("pins", words[0], "-", "--csv", given=given), run("pins", words[0], os.path.join(EXAMPLES, "leak.report"), "--csv"))


class PinsPicture(Folder):
    """The second form of the picture."""

    def drawn(self, trace, *words):
        paths = self.put("report", modelled(trace)), self.put("trace", trace)
        status, said, fault = run("picture", paths[0], "--pins", "--trace", paths[1], *words)
        self.assertEqual((status, fault), (0, ""))
        return xml.dom.minidom.parseString(said)

    def test_spans_and_who_holds_them(self):
        # Page 0: two of sixteen slots, of stacks 1 and 2. Page 1: a full span of stack 3. Pages 2 to 6: a large object of stack 1; pages 7 to 11
        # one that died. Then 8 spans of 4 pages.
        small = ["a 0 500 n 1", "a 0 500 n 2", *["a 0 512 n 9"] * 14]
        full = [*["a 0 2048 s 3"] * 4]
        trace = trace_of(*small, *full, "a 0 40000 s 1", "a 0 40000 s 1", *["a 0 32768 n 4"] * 8, "gc 1", "m 0 1", "m 16 20", "m 22 29", "a 0 8 n 1")
        stacks = self.put("stacks", "1\truntime.mallocgc m.go:1\tmain.f<x> f.go:7\n3\tmain.g g.go:8\n4\tmain.h h.go:9\n")
        page = self.drawn(trace, "--stacks", stacks, "--title", "a & b")
        paths = {one.getElementsByTagName("title")[0].firstChild.data.split("\n")[0].split(",")[0]: one for one in page.getElementsByTagName("path") if one.getElementsByTagName("title")}
        self.assertEqual(sorted(paths), sorted(["page 0", "page 1", "page 2 to 6", *(f"page {at} to {at + 3}" for at in range(12, 44, 4))]))
        titles = {name: one.getElementsByTagName("title")[0].firstChild.data.split("\n") for name, one in paths.items()}
        self.assertEqual(titles["page 0"], ["page 0, 0xc000000000: objects of 512 bytes without pointers", "2 of 16 slots live, 1,000 of 8,192 bytes", "held by 2 stacks:",
                                            "1 x stack 1 main.f<x> f.go:7", "1 x stack 2 (no frames)"])  # fmt: skip
        self.assertEqual(titles["page 1"], ["page 1, 0xc000002000: objects of 2,048 bytes with pointers", "4 of 4 slots live, 8,192 of 8,192 bytes", "pinned by one stack:", "4 x stack 3 main.g g.go:8"])
        self.assertEqual(titles["page 2 to 6"][:3], ["page 2 to 6, 0xc000004000: a large object with pointers", "1 of 1 slots live, 40,000 of 40,960 bytes", "pinned by one stack:"])
        # Two sixteenths are the first eighth, and all slots the last.
        self.assertEqual([paths[name].parentNode.getAttribute("id") for name in ("page 0", "page 1", "page 2 to 6")], ["s0", "s7", "s7"])
        # A page is 56 wide where 16 stand in a row, the fewest.
        self.assertEqual(paths["page 0"].getAttribute("d"), "M90 78h56v56h-56z")
        self.assertEqual(paths["page 2 to 6"].getAttribute("d"), "M202 78h280v56h-280z")
        self.assertEqual(paths["page 28 to 31"].getAttribute("d"), "M762 134h224v56h-224z")
        self.assertEqual(paths["page 32 to 35"].getAttribute("d"), "M90 190h224v56h-224z")
        # The stacks by what they pin, and the spans of each.
        self.assertEqual([paths[name].getAttribute("class") for name in ("page 0", "page 1", "page 2 to 6", "page 12 to 15")], ["", "k2", "k1", "k0"])
        found = {one.getAttribute("id"): [cell.firstChild.data for cell in one.getElementsByTagName("text")] for one in page.getElementsByTagName("g") if one.getAttribute("id").startswith("k")}
        self.assertEqual(found["k0"], ["262,144", "8", "262,144", "8", "4 main.h h.go:9"])
        self.assertEqual(found["k1"], ["40,960", "1", "40,500", "2", "1 main.f<x> f.go:7"])
        self.assertEqual(found["k2"], ["8,192", "1", "8,192", "4", "3 main.g g.go:8"])
        texts = [one.firstChild.data for one in page.getElementsByTagName("text")]
        for part in ("a & b", "Mark end 1 of 1: 44 pages backed, 39 of them in 11 spans kept.", "0 to 12.5 %: 1", "12.5 to 25 %: 0", "87.5 to 100 %: 10", "free, backed"):
            self.assertIn(part, texts)
        # What is free and backed: the five pages of the object that died.
        self.assertIn("M482 78h280v56h-280z", [one.getAttribute("d") for one in page.getElementsByTagName("path")])

    def test_a_span_over_the_end_of_a_row(self):
        page = self.drawn(trace_of("a 0 212992 n 1", "a 0 65536 n 1", "gc 1", "m 0 1"))
        self.assertIn("M650 134h336v56h-336zM90 190h112v56h-112z", [one.getAttribute("d") for one in page.getElementsByTagName("path")])

    def test_nothing_and_much(self):
        page = self.drawn(trace_of("gc 1"))
        for part in ("Mark end 1 of 1: 0 pages backed, 0 of them in 0 spans kept.", "no stack alone pins a span"):
            self.assertIn(part, [one.firstChild.data for one in page.getElementsByTagName("text")])
        # 1024 pages of one object each.
        page = self.drawn(trace_of(*["a 0 8192 n 1"] * 1024, "gc 1", "m 0 1023", "gc 1", "m 1023 1023"), "--at", "1")
        self.assertEqual(len([one for one in page.getElementsByTagName("path") if one.getAttribute("class") == "k0"]), 1024)
        self.assertIn("Mark end 1 of 2: 1,024 pages backed, 1,024 of them in 1,024 spans kept.", [one.firstChild.data for one in page.getElementsByTagName("text")])

    def test_what_cannot_be_drawn(self):
        trace, report_of = os.path.join(EXAMPLES, "leak.trace"), os.path.join(EXAMPLES, "leak.report")
        self.assertEqual(run("picture", report_of, "--pins", "--trace", trace, "--at", "4"), (2, "", f"picture: {trace} has 3 mark ends, and no mark end 4\n"))
        self.assertEqual(run("picture", report_of, "--pins", "--trace", report_of), (2, "", f"picture: {report_of}: this is a report, and no trace\n"))
        for words, why in ((["--peak"], "--at and --peak are for --pins"), (["--at", "1"], "--at and --peak are for --pins"), (["--pins"], "--pins needs --trace")):
            status, out, said = run("picture", report_of, *words)
            self.assertEqual((status, out), (2, ""))
            self.assertIn(why, said)


if __name__ == "__main__":
    unittest.main()
