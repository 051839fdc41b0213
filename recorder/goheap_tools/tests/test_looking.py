"""Tests of the tools that look at reports, and of what reads reports and traces."""

import unittest
import xml.dom.minidom

from goheap_tools.formats import frames, report, traces
from goheap_tools.formats.journal import Give, Miss, Scav, Take
from goheap_tools.heap import classes
from goheap_tools.tests.testing import Folder, block, data, path_of, rows, run
from goheap_tools.tool import Unusable
from goheap_tools.heap import pages
from goheap_tools.views import course, picture, sheet

AS_COUNTED = "the sampled objects as they are counted (all objects if the rate was 1; else see --scale)"
MISSED = "leaks: {} of {} objects ({}) found no room in the region, and are counted nowhere: the table is too low (--trace without a report counts them too)\n"
BEHIND = "leaks: 17 % of the objects (1 of 6) came behind the last mark end, and are in no count\n"
FUNCTION_HEAD = "flat flat% sum% cum cum% objects allocated"
BUCKET_HEAD = "flat flat% sum% objects allocs frees slot"


class Reading(unittest.TestCase):
    def test_each_kind_of_line(self):
        read = report.read_report(data("kinds.report").splitlines(True))
        self.assertEqual((list(read.addresses), read.misses), ([0xC000000000, report.ZERO, report.MISSED], {2: 3}))
        self.assertEqual(read.journal, [Take(0, 0, 1, 6), Give(1, 0, 1), Scav(1, 0, 1), Miss(1, 600, 1), Take(1, 0, 5, 0)])
        self.assertEqual((list(read.sweeps), list(read.totals), len(read.buckets)), ([report.Sweep(1, 0, 0, 1)], [(3, 1, 1)], 4))

    def test_no_report(self):
        for text in ("", "o 0 0xc000000000\n", "end\nend\n", "j 0 0 taken 0 1 6\nend\n", "x\nend\n", "\nend\n"):
            with self.assertRaises(Unusable, msg=text):
                report.read_report(text.splitlines(True))

    def test_no_trace(self):
        head = "goheap 1\nheap 1 procs 1 rate 0 seed 1 goal 512\n"
        for text in ("", "goheap 2\n", "goheap 1\n", "goheap 1\nheap 1\nend\n", head, head + "a 0 8 n 1\n", head + "a 0 8 n\nend\n", head + "m 0 0\nend\n", head + "gc 1\nm 0\nend\n", head + "\nend\n"):
            with self.assertRaises(Unusable, msg=text):
                traces.read_trace(text.splitlines(True))
        read = traces.read_trace((head + "gc 1\nend\n").splitlines(True))
        self.assertEqual((read.mark_ends, read.ranges(1)), (1, []))

    def test_slots(self):
        self.assertEqual([classes.slot_of(size) for size in (1, 8, 9, 1024, 1025, 32768, 32769)], [8, 8, 16, 1024, 1152, 32768, 40960])

    def test_marked(self):
        read = traces.read_trace(("goheap 1\nheap 1 procs 1 rate 0 seed 1 goal 512\n" + 11 * "a 0 8 n 1\n" + "gc 1\nm 1 2\nm 5 9\na 0 8 n 1\ngc 1\nm 2 2\nm 6 6\nm 11 11\nend\n").splitlines(True))
        self.assertEqual([list(read.marked(mark_end)) for mark_end in (1, 2)], [[1, 2, 5, 6, 7, 8, 9], [2, 6, 11]])
        self.assertEqual(list(read.lasts()), [0, 1, 2, 0, 0, 1, 2, 1, 1, 1, 0, 2])


class Leaks(Folder):
    def table(self, *words, given="", told=""):
        """The words of each line that `leaks` prints, where it tells this besides."""
        status, said, fault = run("leaks", *words, given=given)
        self.assertEqual((status, fault), (0, told))
        return rows(said)

    def test_the_profile_of_a_report(self):
        self.assertEqual(
            self.table("-", given=data("kinds.report"), told=MISSED.format(1, 3, "4.69MB")),
            rows(
                f"""Mark end 2: 456B in use, 576B allocated; {AS_COUNTED}
                Showing 2 of 2 buckets in use, accounting for 456B, 100.0% of 456B total
                {BUCKET_HEAD} since 1 grew stack
                360B 78.9% 78.9% 15 20 5 24 216B 1/1 7 (no frames)
                96B 21.1% 100.0% 2 2 0 48 96B 1/1 8 (no frames)"""
            ),
        )

    def test_the_objects_of_a_trace(self):
        # At the second mark end the objects 2, 3 and 4 live; 0 and 1 died.
        self.assertEqual(
            self.table("--trace", path_of("small.trace"), "--stacks", path_of("small.stacks"), "--buckets", told=BEHIND),
            rows(
                f"""Mark end 2: 152B in use, 288B allocated; all objects of the trace
                Showing 3 of 3 buckets in use, accounting for 152B, 100.0% of 152B total
                {BUCKET_HEAD} since 1 grew stack
                112B 73.7% 73.7% 1 1 0 112 112B 1/1 3 main.buffer /home/user/main.go:16
                24B 15.8% 89.5% 1 2 1 24 0B 0/1 0 main.push /home/user/main.go:12
                16B 10.5% 100.0% 1 1 0 16 0B 0/1 2 main.(*table).grow /home/user/main.go:31"""
            ),
        )

    def test_the_misses_of_a_report_are_left_out(self):
        objects = "o 0 0xc000000000\no 1 0xc000002000\no 2 miss 9\no 3 0xc000000018\no 4 0xc000004000\no 5 0xc000006000\nend\n"
        table = self.table("-", "--trace", path_of("small.trace"), given=objects, told=MISSED.format(1, 6, "16B") + BEHIND)
        self.assertEqual([row[:3] + row[-3:-2] for row in table[3:]], [["112B", "82.4%", "82.4%", "3"], ["24B", "17.6%", "100.0%", "0"]])

    def test_functions(self):
        # `cum` has what a function and those that it calls have in use; main.push is called by main.main, and nobody calls the others.
        self.assertEqual(
            self.table("--trace", path_of("small.trace"), "--stacks", path_of("small.stacks"), told=BEHIND),
            rows(
                f"""Mark end 2: 152B in use, 288B allocated; all objects of the trace
                Showing 5 of 5 functions in use, accounting for 152B, 100.0% of 152B total
                {FUNCTION_HEAD} since 1 grew function
                112B 73.7% 73.7% 112B 73.7% 1 224B 112B 1/1 main.buffer
                24B 15.8% 89.5% 24B 15.8% 1 48B 0B 0/1 main.push
                16B 10.5% 100.0% 16B 10.5% 1 16B 0B 0/1 main.(*table).grow
                0B 0.0% 100.0% 24B 15.8% 0 0B 0B 0/1 main.main
                0B 0.0% 100.0% 24B 15.8% 0 0B 0B 0/1 runtime.main"""
            ),
        )

    def test_hidden_frames(self):
        shown = frames.shown_frames
        own, makes = "runtime.mallocgc /go/malloc.go:1", "runtime.malg /go/proc.go:1"
        self.assertEqual(shown([own, "runtime.mapassign /go/map.go:1", "main.f /m.go:1", "runtime.main /go/proc.go:2"]), ["main.f /m.go:1", "runtime.main /go/proc.go:2"])
        self.assertEqual((shown([own, makes]), shown([own]), shown([])), ([makes], [own], ["(no frames)"]))

    def test_frames_and_top(self):
        table = self.table("--trace", path_of("small.trace"), "--stacks", path_of("small.stacks"), "--frames", "--top", "2", told=BEHIND)
        self.assertEqual(table[1], "Showing 2 of 3 buckets in use, accounting for 136B, 89.5% of 152B total".split())
        self.assertEqual(table[4:], rows("24B 15.8% 89.5% 1 2 1 24 0B 0/1 0 main.push /home/user/main.go:12\nmain.main /home/user/main.go:20\nruntime.main /go/src/runtime/proc.go:250"))

    def test_both_forms_of_a_profile(self):
        # Three objects of 24 bytes by stack 7, of which the first mark end keeps one; then one more, and the second keeps that one.
        front = "o 0 0xc000000000\no 1 0xc000000018\no 2 0xc000000030\no 3 0xc000000018\nj 0 0 take 0 1 6\ns 1 0 1 2\ns 2 0 1 1\nt 3 4 3\n"
        last = self.table("-", given=front + "p 2 7 24 4 3\nend\n")
        each = self.table("-", given=front + "p 1 7 24 3 2\np 2 7 24 4 3\nend\n")
        self.assertEqual(last[0], f"Mark end 2: 24B in use, 96B allocated; {AS_COUNTED}".split())
        self.assertEqual(last[2:], rows(f"{BUCKET_HEAD} stack\n24B 100.0% 100.0% 1 4 3 24 7 (no frames)"))
        self.assertEqual(each[:2], last[:2])
        self.assertEqual(each[2:], rows(f"{BUCKET_HEAD} since 1 grew stack\n24B 100.0% 100.0% 1 4 3 24 0B 0/1 7 (no frames)"))

    def test_growth(self):
        # Stack 7 grows at each mark end, 8 once and falls again, 9 comes late; what did not change is not printed before the last mark end.
        given = "p 1 7 8 1 0\np 1 8 8 9 0\np 2 7 8 2 0\np 2 8 8 11 0\np 3 7 8 3 0\np 3 8 8 11 2\np 3 9 8 1 0\np 4 7 8 4 0\np 4 8 8 11 2\np 4 9 8 1 0\nend\n"
        self.assertEqual(
            self.table("-", given=given)[3:],
            rows("72B 64.3% 64.3% 9 11 2 8 0B 1/3 8 (no frames)\n32B 28.6% 92.9% 4 4 0 8 24B 3/3 7 (no frames)\n8B 7.1% 100.0% 1 1 0 8 8B 1/3 9 (no frames)"),
        )

    def test_small_objects_beside_large_ones_are_told(self):
        """At a rate of 1000 bytes: objects of 1920 bytes, and of 192."""
        mixed = "o 0 zero\np 1 7 192 30 2\np 1 8 1920 30 2\nend\n"
        status, _, said = run("leaks", "-", "--scale", "1000", given=mixed)
        self.assertEqual(status, 0)
        self.assertEqual(said, "leaks: small objects stand beside some of the rate's size (1000 bytes) and more: their estimate may be much too low, by distances that are uniform here (docs/recording.md); record at rate 1\n")
        for given, scale in ((mixed, "1"), (mixed.replace("1920", "208"), "1000"), (mixed.replace("192 ", "2048 "), "1000")):
            self.assertEqual(run("leaks", "-", "--scale", scale, given=given)[2], "")

    def test_sampled_counts_are_scaled(self):
        # At a rate of 24 bytes an object of 24 bytes is sampled with probability 1 - 1/e, so 3 of them stand for 4.75.
        self.assertEqual(
            self.table("-", "--scale", "24", given="o 0 zero\np 1 7 24 3 2\nend\n"),
            rows(
                f"""Mark end 1: 38B in use, 114B allocated; estimated from the objects sampled at rate 24
                Showing 1 of 1 buckets in use, accounting for 38B, 100.0% of 38B total
                {BUCKET_HEAD} stack
                38B 100.0% 100.0% 2 5 3 24 7 (no frames)"""
            ),
        )

    def test_all_was_freed(self):
        self.assertEqual(self.table("-", given="p 1 7 24 3 3\nend\n")[:2], rows(f"Mark end 1: 0B in use, 72B allocated; {AS_COUNTED}\nShowing 0 of 0 buckets in use, accounting for 0B, 0.0% of 0B total"))

    def test_no_profile(self):
        status, _, said = run("leaks", "-", given="o 0 0xc000000000\nj 0 0 take 0 1 6\nt 3 1 0\nend\n")
        self.assertEqual(status, 2)
        self.assertIn("leaks: -: there is no profile", said)


class Picture(Folder):
    def drawn(self, given, *words):
        """The picture's texts, after it was read as XML."""
        status, svg, said = run("picture", "-", *words, given=given)
        self.assertEqual((status, said), (0, ""))
        return [node.firstChild.data for node in xml.dom.minidom.parseString(svg).getElementsByTagName("text")]

    def test_each_kind_of_line(self):
        texts = self.drawn(data("kinds.report"), "--title", "a < b & c")
        for part in (
            "a < b & c",
            "At the end 5 pages (0.04 MiB) are backed, 5 of them in 1 spans. Mark end 1 kept 0 objects in slots of 0.00 MiB.",
            "pages of 8 KiB by number, over the 5 lines of the journal, from left to right; dashed: a mark end",
            "miss: no run of pages (1)",
            "free, scavenged",
            "free, backed",
            "span of small objects with pointers",
            "large object with pointers",
            "kept",
        ):
            self.assertIn(part, texts)
        self.assertNotIn("large object without pointers", texts)

    def test_the_course(self):
        # Page 0 for 24 bytes with pointers, pages 1 to 5 for a large object; mark end 1 keeps two small ones and the large one, mark end 2 one
        # small one alone; the large one's pages are scavenged.
        lines = "j 0 0 take 0 1 6\nj 1 0 take 1 5 1\nj 2 2 give 1 5\nj 3 2 scav 1 5\ns 1 0 2 1\ns 1 1 1 0\ns 2 0 1 1\ns 2 1 0 1\nend\n"
        seen = course.Course(report.read_report(lines.splitlines(True)), 4, 6)
        self.assertEqual((seen.backed, seen.in_spans, seen.spans), ([1, 6, 6, 1], [1, 6, 1, 1], [1, 2, 1, 1]))
        self.assertEqual((dict(seen.kept_bytes), seen.cycles), ({1: 48 + 40960, 2: 24}, [0, 0, 2, 2]))
        self.assertEqual(picture.by_mark_end(report.read_report(lines.splitlines(True)).sweeps), (1, [(1, 3, 1), (2, 1, 2)]))
        colours = {name: bytes.fromhex(sheet.KINDS[getattr(pages, name)][0][1:]) for name in ("UNTOUCHED", "SMALL", "LARGE_PLAIN", "RELEASED")}
        self.assertEqual(seen.map[0], [colours["SMALL"]] + 5 * [colours["UNTOUCHED"]])
        self.assertEqual((seen.map[1][1], seen.map[3][1]), (colours["LARGE_PLAIN"], colours["RELEASED"]))

    def test_a_row_of_several_pages(self):
        # Half white, half as small objects with pointers are.
        self.assertEqual(course.Shades().of(bytes([pages.UNTOUCHED, pages.SMALL])), bytes((255 + one) // 2 for one in bytes.fromhex(sheet.KINDS[pages.SMALL][0][1:])))

    def test_many_pages_and_mark_ends(self):
        given = "j 0 0 take 0 40000 0\n" + "".join(f"j {number} {number} give 0 1\n" for number in range(1, 1001))
        texts = self.drawn(given + "".join(f"s {cycle} 0 {cycle} 0\n" for cycle in range(1, 1001)) + "end\n")
        self.assertIn("objects at each mark end whose number 3 divides, and the last", texts)
        self.assertIn("pages of 8 KiB by number, over the 1,001 lines of the journal, from left to right; the colours of up to 96 pages in a row are mixed; dashed: a mark end", texts)

    def test_round_numbers(self):
        steps = picture.steps
        self.assertEqual([list(steps(most, 4)) for most in (1, 4, 5, 9, 333, 40000)], [[0, 1], [0, 1, 2, 3, 4], [0, 2, 4], [0, 5], [0, 100, 200, 300], [0, 10000, 20000, 30000, 40000]])

    def test_the_picture_of_nothing(self):
        self.assertIn("no mark end", self.drawn("end\n"))
        self.assertEqual(self.drawn("end\n", "--title", "a\x01b\udcff")[0], "a?b?")


class Comparing(Folder):
    def log(self):
        """Objects of 16 bytes in slots 0 and 3 of a span, a tiny one, one of 48 bytes, one of five pages; then a mark end that keeps all."""
        real = [(0xC000008000, 0x10, 0x10), (0xC000008030, 0x10, 0x10), (0xC00000A000, 5, 0x10), (0xC00000C000, 0x28, 0x30), (0xC000010000, 0x9C40, 0xA000)]
        blocks = [block(address, f"{slot:#x}").replace(f"mallocgc({slot:#x}", f"mallocgc({asked:#x}") for address, asked, slot in real]
        return self.put("log", "".join(blocks) + "tracegc()\nend tracegc\n\n")

    def trace(self, last="a 0 40000 n 0"):
        return self.put("trace", f"goheap 1\nheap 1 procs 1 rate 0 seed 1 goal 512\na 0 16 s 0\na 0 16 s 0\na 0 5 n 0\na 0 40 s 0\n{last}\ngc 1\nm 0 4\nend\n")

    def report(self, last="o 4 0xc000006000\n"):
        return self.put("report", "o 0 0xc000000000\no 1 0xc000000010\no 2 0xc000002000\no 3 0xc000004000\n" + last + "end\n")

    def test_what_agrees(self):
        status, said, _ = run("compare", self.log(), self.trace(), self.report())
        self.assertEqual(status, 0)
        table = rows(said)
        self.assertEqual(table[:6], rows(
            """objects 5 100.0%
            same slot size 4 80.0%
            tiny, a block of its own in the model 1 20.0%
            another slot size 0 0.0%
            refused by the model 0 0.0%
            same slot of the span, where both are known 3 75.0% of 4"""
        ))  # fmt: skip
        self.assertEqual(table[7:11], rows("slot objects same slot other not known\n16 2 1 1 0\n48 1 1 0 0\n40960 1 1 0 0"))
        # The program has spans of 16 bytes at two pages, of 48 and of 40960; the model has one of 8, of 16, of 48 and of 40960.
        self.assertEqual(table[12:], rows("mark end spans alive model sizes with as many within a tenth of\n1 4 4 2 2 4"))

    def test_a_miss(self):
        self.assertIn("refused by the model                               1   20.0%", run("compare", self.log(), self.trace(), self.report("o 4 miss 3\n"))[1])

    def test_what_does_not_belong_together(self):
        for trace, report_of, why in (
            ("a 0 41000 n 0", "o 4 0xc000006000\n", "object 4 of the trace has 41000 bytes, in the log 40000: it was recorded from another log"),
            ("a 0 40000 n 0\na 0 8 n 1", "o 4 0xc000006000\no 5 miss 1\n", "the log has 5 allocations and the trace 6 objects: it was recorded from another log"),
            ("a 0 40000 n 0", "", "the trace has 5 objects and the report 4: it is no report of this trace"),
        ):
            self.assertEqual(run("compare", self.log(), self.trace(trace), self.report(report_of)), (2, "", f"compare: {why}\n"))
