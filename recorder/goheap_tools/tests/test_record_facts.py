"""What `facts` sums up of recordings that were written by hand, and what it refuses."""

import json
import os
import struct
import zlib

from goheap_tools.inside import summary
from goheap_tools.inside.facts import Facts, profiles
from goheap_tools.inside.names import Names, behind, packed, who
from goheap_tools.inside.recording import Recording, Stack
from goheap_tools.inside.symbols import Frame
from goheap_tools.inside.types import Type
from goheap_tools.tests.recordings import CHUNK, HEAP, PAGE, TEXT, begin, counts, large, recording, run, simple, small, stack, sweep
from goheap_tools.tests.testing import Folder
from goheap_tools.tests.testing import run as run_tool

MIB = 1 << 20


def processor_0():
    """Two spans, objects of every kind, a mark end at which one object of three is dead, and a large one that goes back."""
    yield begin(1, rate=0)
    yield simple(27, 2, 4 * MIB, HEAP)
    yield stack(7, 0, [TEXT + 10, TEXT + 20])
    yield run(25, 3, HEAP, 1, span_class=5)  # objects of 16 bytes without pointers
    yield run(25, 4, HEAP + PAGE, 4, use=1, scavenged=4)  # a goroutine's stack
    yield small(1, HEAP, 13, 7, flags=1)
    yield small(1, HEAP + 16, 3, 7, flags=1 | 2)  # leads a tiny block
    yield small(2, HEAP + 19, 5, 7, flags=1)  # rides in it
    yield small(3, HEAP - 8, 0, 7, flags=1)
    yield small(1, HEAP + 32, 16, 7, flags=1 | 4)
    yield run(24, 5, HEAP + 5 * PAGE, 5, span_class=1)
    yield large(HEAP + 5 * PAGE, 33000, 7, flags=1)
    yield counts(19, 6, 2_000_000_000, 1, mallocs=5, frees=1, allocated=3 * 16 + 5 * PAGE, freed=0, heap=6 * PAGE, stacks=4 * PAGE, released=4 * MIB - 4 * PAGE)
    yield sweep(7, HEAP, 512, 3, [0, 1], 5)
    yield sweep(8, HEAP + 5 * PAGE, 1, 1, [], 1)
    yield run(26, 9, HEAP + 5 * PAGE, 5, span_class=1)
    yield run(25, 10, HEAP + 5 * PAGE, 2, use=3)  # the collector's work buffers
    yield simple(28, 11, 8, HEAP + 16 * PAGE)
    yield simple(29, 12, 8, HEAP + 16 * PAGE)
    yield simple(31, 13, 0, flags=1)


class Sums(Folder):
    def facts(self, processors, next_ticket, **more):
        path = os.path.join(self.folder.name, "x.heap")
        with open(path, "wb") as file:
            file.write(recording(processors, next_ticket, **more))
        with Recording(path) as opened:
            return Facts(opened)

    def test_sums_at_a_mark_end_and_at_the_end(self):
        facts = self.facts([list(processor_0())], 14)
        (name, at), (end, _) = [(point.name, point.clock) for point in facts.points]
        self.assertEqual((name, at, end), ("mark end 1", 2_000_000_000, "end"))
        first, last = (point.sums for point in facts.points)
        self.assertEqual(facts.points[0].differences(), [])
        self.assertEqual((first.mallocs, first.frees, first.riders, first.empty, first.sampled), (5, 1, 1, 1, 1))
        self.assertEqual((last.mallocs, last.frees, last.heap_alloc), (5, 1 + 1 + 1, 2 * 16))
        self.assertEqual((last.heap_in_use, last.stack_in_use, last.others_in_use), (PAGE, 4 * PAGE, 2 * PAGE))
        self.assertEqual((last.idle, last.released * PAGE), (4 * MIB - 7 * PAGE, 4 * MIB - 4 * PAGE + 8 * PAGE))
        self.assertEqual((last.flushes, last.sweeps, last.collections, facts.left_out), (1, 2, 1, 0))


    def test_what_one_processor_does_counts_where_the_other_s_mark_end_is(self):
        # The second processor's objects stand behind its tickets 2 and 5; the mark end between them has ticket 4.
        one = [begin(1), counts(19, 4, 5, 1, 2, 0, 2 * 48, 0, PAGE, 0, 4 * MIB)]
        other = [simple(27, 2, 4 * MIB, HEAP), run(25, 3, HEAP, 1, span_class=10), small(1, HEAP, 48, 0), small(1, HEAP + 48, 48, 0), simple(31, 5, 1), small(1, HEAP + 96, 48, 0)]
        facts = self.facts([one, other], 6)
        self.assertEqual([point.sums.mallocs for point in facts.points], [2, 3])
        self.assertEqual(facts.points[0].differences(), [])

    def test_what_stands_behind_a_missing_ticket_is_left_out(self):
        one = [begin(1), simple(27, 2, 4 * MIB, HEAP), run(25, 3, HEAP, 1, span_class=10), small(1, HEAP, 48, 0), simple(31, 5, 0), small(1, HEAP + 48, 48, 0), small(1, HEAP + 96, 48, 0)]
        facts = self.facts([one], 6, state=1)
        self.assertEqual((facts.missing, facts.left_out, facts.points[-1].sums.mallocs), (4, 3, 1))

    def test_between_a_stop_and_the_next_beginning_nothing_counts(self):
        one = [begin(1), simple(27, 2, 4 * MIB, HEAP), run(25, 3, HEAP, 2, span_class=10), small(1, HEAP, 48, 0), simple(17, 4, 9), small(1, HEAP + 48, 48, 0),
               [16 | 2 << 8, 5, 0, 1, 1, 0], [48 | HEAP << 16, 6, 2 | 10 << 32, 341 | 2 << 16 | 2 << 32, 0, 3, 0, 0, 0, 0, 0],
               [48 | HEAP + 4 * PAGE << 16, 7, 3 | 4 << 40, 0, 0], [49 | HEAP << 16, 8, 0b1110011, *[0] * 15],
               counts(19, 9, 7, 2, 1000, 900, 50000, 40000, 2 * PAGE, PAGE, 0), small(1, HEAP + 96, 48, 0)]  # fmt: skip
        facts = self.facts([one], 10)
        (start,), end = [point.sums for point in facts.points[:-1]], facts.points[-1].sums
        # The runtime's own counts are where it begins; of three pages without objects it says that one is a stack.
        self.assertEqual((start.mallocs, start.heap_alloc, start.heap_in_use, start.stack_in_use, start.others_in_use), (1000, 10000, 2 * PAGE, PAGE, 2 * PAGE))
        self.assertEqual((end.mallocs, end.idle), (1001, (512 - 5) * PAGE))
        self.assertEqual(facts.points[0].differences(), [])

    def test_where_the_runtime_counts_otherwise(self):
        one = [begin(1), simple(27, 2, 4 * MIB, HEAP), run(25, 3, HEAP, 1, span_class=10), small(1, HEAP, 48, 0), counts(19, 4, 5, 1, 2, 0, 96, 0, PAGE, 0, 4 * MIB)]
        self.assertEqual(self.facts([one], 5).points[0].differences(), ["Mallocs 1 recorded, 2 counted", "HeapAlloc 48 recorded, 96 counted"])

    def test_both_profiles(self):
        # Of objects of 1000 bytes at rate 1000 Go's tools take a sampled one for 1 / (1 - exp(-1)) = 1.58 objects.
        one = [begin(1, rate=1000), stack(1, 0, [TEXT]), stack(2, 0, [TEXT + 1]), simple(27, 2, 4 * MIB, HEAP), small(1, HEAP, 1000, 1, flags=4), small(1, HEAP + 1024, 1000, 1),
               small(1, HEAP + 2048, 1000, 1, flags=4), small(1, HEAP + 3072, 10, 2), large(HEAP + 8 * PAGE, 40000, 2, flags=4), counts(32, 3, 1, 0, 0, 0, 0, 0, 0, 0, 0, rate=1000)]  # fmt: skip
        first, second = profiles(self.facts([one], 4))
        self.assertEqual((first.stack, first.objects, first.size, first.sampled), (2, 2, 40010, 1))
        self.assertEqual((second.stack, second.objects, second.size, second.sampled), (1, 3, 3000, 2))
        self.assertAlmostEqual(first.estimated_size, 40000, 3)
        self.assertAlmostEqual(second.estimated_size, 2 * 1000 / (1 - 0.36787944), 3)

    def test_the_table(self):
        path = os.path.join(self.folder.name, "x.heap")
        with open(path, "wb") as file:
            file.write(recording([list(processor_0())], 14))
        status, out, said = run_tool("facts", path)
        self.assertEqual((status, said), (0, ""))
        self.assertEqual([line.split() for line in out.splitlines()[2:5]], [
            ["mark", "end", "at", "mallocs", "frees", "HeapAlloc", "HeapInuse", "HeapIdle", "HeapReleased", "StackInuse", "other", "procs", "agrees"],
            ["1", "2.000", "s", "5", "1", "40.05kB", "48.00kB", "3.92MB", "3.97MB", "32.00kB", "0B", "1", "yes"],
            ["end", "5", "3", "32B", "8.00kB", "3.95MB", "4.03MB", "32.00kB", "16.00kB", "1"]])  # fmt: skip
        self.assertIn("Beside the heap at the end: 32.00kB of goroutine stacks, 16.00kB of bitmaps and the collector's work buffers.", out)
        self.assertIn("A processor's cache was flushed in mid-cycle 1 times", out)
        status, out, said = run_tool("facts", path, "--csv")
        self.assertEqual(out.splitlines()[1], f"1,2.000 s,5,1,{3 * 16 + 5 * PAGE},{6 * PAGE},{4 * MIB - 10 * PAGE},{4 * MIB - 4 * PAGE},{4 * PAGE},0,1,yes")
        status, out, said = run_tool("facts", path, "--profile")
        self.assertEqual(status, 0)
        self.assertIn("facts: functions are told by their addresses: /nowhere/server: No such file or directory", said)
        self.assertEqual(out.splitlines()[-1].split()[:3], [f"{TEXT + 10:#x}", "6", "32.26kB"])


class Named(Folder):
    MAIN, SERVE = Frame("main.main", "/src/main.go", 10), Frame("main.serve", "/src/serve.go", 20)
    RUNTIME = [Frame(f"runtime.{name}", "/go/x.go", 1) for name in ("malg", "newproc1", "newproc.func1", "systemstack", "newproc")]

    def test_who_allocated(self):
        newobject = Frame("runtime.newobject", "/go/malloc.go", 1)
        self.assertEqual(who((newobject, self.SERVE, self.MAIN)), (self.SERVE, self.MAIN))
        self.assertEqual(who((newobject, self.RUNTIME[0])), (self.RUNTIME[0],))
        # A new goroutine's descriptor is of runtime.malg, called by who began the goroutine.
        self.assertEqual(who((newobject, *self.RUNTIME, self.SERVE, self.MAIN)), (*self.RUNTIME[:3], self.SERVE, self.MAIN))
        self.assertEqual(who(()), ())

    def test_names_stay_as_they_are_behind_a_recording(self):
        names = Names({TEXT + 10: ((self.SERVE, 0), (self.MAIN, 21)), TEXT + 20: ()}, {8: Type("main.list[\u00e9]", 48, 16)}, "server")
        path = os.path.join(self.folder.name, "x.heap")
        with open(path, "wb") as file:
            file.write(recording([[begin(1)]], 2) + packed(names))
        with Recording(path) as opened:
            found = behind(opened)
            self.assertEqual((found.places, found.types, found.program), (names.places, names.types, "server"))
            # A wrapper is left out, and an address without a name stands for itself.
            self.assertEqual([str(frame) for frame in found.frames(Stack(1, 0, (TEXT + 10, TEXT + 30), False))], [str(self.SERVE), f"{TEXT + 30:#x} ?:0"])
        with open(path, "wb") as file:
            file.write(recording([[begin(1)]], 2))
        with Recording(path) as opened:
            self.assertIsNone(behind(opened))

    def test_damaged_names(self):
        good = recording([[begin(1)]], 2)
        body = zlib.compress(json.dumps({"program": "", "texts": [], "places": {"1": [[0, 0, 0, 0]]}, "types": {}}).encode())
        for tail, offset in ((struct.pack("<8sQQ", b"goheapnm", 2, 0), 8), (struct.pack("<8sQQ", b"goheapnm", 1, 1 << 40), 16), (struct.pack("<8sQQ", b"goheapnm", 1, 5) + b"wrong", 24),
                             (struct.pack("<8sQQ", b"goheapnm", 1, len(body)) + body, 24), (struct.pack("<8sQQ", b"goheapnm", 1, 100) + bytes(10), 16)):  # fmt: skip
            path = os.path.join(self.folder.name, "x.heap")
            with open(path, "wb") as file:
                file.write((good + tail).ljust(-(-len(good + tail) // CHUNK) * CHUNK if offset != 16 else len(good + tail), b"\0"))
            status, out, said = run_tool("facts", path, "--profile")
            if status == 2:
                self.assertRegex(said, rf"x\.heap: byte {len(good) + offset}: |the file ends within a chunk")
            self.assertEqual((status, "Traceback" in said), (2, False), offset)


class Damaged(Folder):
    """A foreign or damaged recording is refused with what is wrong and at which byte."""

    def refusal(self, data):
        path = os.path.join(self.folder.name, "x.heap")
        with open(path, "wb") as file:
            file.write(data)
        status, out, said = run_tool("facts", path)
        self.assertEqual((status, out), (2, ""), said)
        self.assertEqual(len(said.splitlines()), 1)
        return said.removeprefix(f"facts: {path}: ").rstrip()

    def test_what_is_foreign(self):
        self.assertIn("no recording", self.refusal(b"goheap 1\n"))
        self.assertIn("no recording", self.refusal(b""))
        self.assertIn("byte 0: no recording", self.refusal(b"x" * CHUNK))

    def test_what_is_damaged(self):
        one = list(processor_0())
        good = recording([one], 14)
        begins = {}
        at = CHUNK + 32
        for event in one:
            begins[event[0] & 255] = at
            at += 8 * len(event)

        def changed(offset, value, form="<Q"):
            data = bytearray(good)
            struct.pack_into(form, data, offset, value)
            return bytes(data)

        for data, why in (
            (good[:-1], rf"byte {2 * CHUNK - 1}: the file ends within a chunk"),
            (changed(8, 3), "byte 8: a recording of version 3"),
            (changed(16, 4096), "byte 16: chunks of 4096 bytes"),
            (changed(32, 1 << 50), "byte 32: "),
            (changed(8 * 25, 1), "byte 200: a word of the header"),
            (changed(CHUNK, 193), f"byte {CHUNK}: no chunk"),
            (changed(CHUNK, 192 | 2000 << 16), f"byte {CHUNK}: no chunk"),
            (changed(CHUNK + 24, 5), f"byte {CHUNK + 24}: chunk 5"),
            (changed(begins[27], 99, "<B"), f"byte {begins[27]}: an event of kind 99, which is not known"),
            (changed(begins[31] + 1, 2, "<B"), f"byte {begins[31]}: an event of kind 31 has a flag that it cannot have"),
            (changed(begins[31] + 8, 3), f"byte {begins[31]}: ticket 3 does not rise|ticket 3 was drawn twice"),
            (changed(begins[31] + 8, 1 << 60), f"byte {begins[31]}: ticket {1 << 60} does not rise, or was never drawn"),
            (changed(begins[5] + 16, 1 << 15), f"byte {begins[5]}: an event of kind 5 goes over the end of its chunk"),
            (changed(begins[20] + 16, 0xFFFF), f"byte {begins[20]}: an event of kind 20 (goes over|has a number)"),
            (changed(begins[25] + 16, 1 | 200 << 32), f"byte {begins[25]}: an event of kind 25 has a number that it cannot have"),
        ):  # fmt: skip
            self.assertRegex(self.refusal(data), why)

    def test_each_word_may_be_anything(self):
        """Whatever a word holds, a recording is read or refused, and nothing else happens."""
        good = recording([list(processor_0())], 14)
        for at in [*range(0, 24 * 8, 8), *range(CHUNK, CHUNK + 120 * 8, 8)]:
            for value in (0, 0xFFFF << 32, (1 << 64) - 1):
                data = bytearray(good)
                struct.pack_into("<Q", data, at, value)
                path = os.path.join(self.folder.name, "x.heap")
                with open(path, "wb") as file:
                    file.write(data)
                status, _, said = run_tool("facts", path)
                self.assertIn(status, (0, 2), (at, value, said))
                self.assertNotIn("Traceback", said)
                found = summary.finish_one(path, None)
                self.assertTrue(found.fault or found.path == path)


if __name__ == "__main__":
    import unittest

    unittest.main()
