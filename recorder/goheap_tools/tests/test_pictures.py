"""What both pictures show: titles, axes, colours, spans by function, the histogram of how full they are, and what a reader that speaks is told."""

import itertools
import os
import re
import xml.dom.minidom

from goheap_tools.formats import report, traces
from goheap_tools.formats.stacks import Stacks, read_stack_file
from goheap_tools.heap import pages
from goheap_tools.tests.testing import Folder, run
from goheap_tools.views import course, painted, picture, pinmap, sheet

STACKS = "# goheap stacks 2\n# program\tserver\n# go\tgo1.21.13\n# date\t2026-11-30\n" + "".join(f"{at}\t\tmain.f{at} m.go:{at}\n" for at in range(8))
# Seven pages, each of one object of 8192 bytes: of stack 0 three, of the stacks 1 to 4 one each. The mark end keeps all.
SEVEN = "goheap 1\nheap 1 procs 1 rate 1 seed 1 goal 512\n" + "".join(f"a 0 8192 n {stack}\n" for stack in (0, 0, 0, 1, 2, 3, 4)) + "gc 1\nm 0 6\nend\n"
SEVEN_REPORT = ("".join(f"o {at} {0xC000000000 + 8192 * at:#x}\n" for at in range(7)) + "".join(f"j {at} 0 take {at} 1 103\n" for at in range(7))
                + "".join(f"s 1 {at} 1 0\n" for at in range(7)) + "t 51 7 0\nend\n")  # fmt: skip


class Pictures(Folder):
    def setUp(self):
        super().setUp()
        self.paths = [self.put("report", SEVEN_REPORT), "--trace", self.put("trace", SEVEN), "--stacks", self.put("stacks", STACKS)]

    def drawn(self, *words):
        status, svg, said = run("picture", *(words or self.paths))
        self.assertEqual((status, said), (0, ""))
        return xml.dom.minidom.parseString(svg)

    def texts(self, *words):
        return [node.firstChild.data for node in self.drawn(*words).getElementsByTagName("text")]

    def both(self):
        return (self.paths, [*self.paths, "--pins"])

    def test_the_title_is_the_program_its_go_and_the_day(self):
        for words in self.both():
            self.assertEqual(self.texts(*words)[0], "server, go1.21.13, 2026-11-30")
            self.assertEqual(self.texts(*words, "--title", "Mine")[0], "Mine")
        self.assertEqual(self.texts(self.paths[0])[0], "goheap report")
        self.assertEqual(sheet.title_of(Stacks({"program": "x"}, {}, {})), "x")

    def test_axes_are_in_mebibytes_and_have_their_top(self):
        # 7 pages are 56 KiB, 0.0547 MiB: the map's axis and that of the backed memory have it at the top
        texts = self.texts()
        self.assertEqual(texts.count("0.0547"), 2)
        self.assertEqual(texts.count("MiB"), 2)
        self.assertEqual(picture.parts_of(4.0, 4), [0, 1, 2, 3, 4.0])
        self.assertEqual(picture.parts_of(0.5, 5), [0, 0.1, 0.2, 0.3, 0.4, 0.5])
        self.assertEqual(picture.parts_of(4.1, 4), [0, 2, 4.1])

    def test_the_top_of_each_axis_is_told(self):
        axis = "".join(picture.axis(0, 100, 333, 4))
        self.assertEqual(re.findall(r">([0-9,.]+)</text>", axis), ["0", "100", "200", "333"])
        self.assertIn('y1="0.0"', axis)

    def test_one_colour_means_one_thing(self):
        colours = [colour for colour, _ in sheet.KINDS.values()] + [*sheet.FUNCTION_COLOURS, sheet.KEPT, sheet.FREED, sheet.IN_SPANS, sheet.MISS, sheet.LAST, *sheet.SHADES]
        self.assertEqual(len(set(colours)), len(colours))
        # no two are so near that they could be taken for each other, but for the neighbours in a scale
        parts = [tuple(bytes.fromhex(colour[1:])) for colour in colours[: -len(sheet.SHADES)]]
        nearest = min(sum(abs(a - b) for a, b in zip(one, other)) for one, other in itertools.combinations(parts, 2))
        self.assertGreater(nearest, 40)

    def test_spans_by_function(self):
        texts = self.texts(*self.paths, "--functions")
        for name in ("main.f0", "main.f1", "main.f4"):
            self.assertIn(name, texts)
        self.assertNotIn("span of small objects without pointers", texts)
        trace, found = traces.read_trace(SEVEN.splitlines(True)), report.read_report(SEVEN_REPORT.splitlines(True))
        stacks = read_stack_file(STACKS.splitlines(True))
        by = painted.Painted(trace, found, stacks)
        self.assertEqual((by.names, by.of_line), (["main.f0", "main.f1", "main.f2", "main.f3", "main.f4"], {0: 0, 1: 0, 2: 0, 3: 1, 4: 2, 5: 3, 6: 4}))
        seen = course.Course(found, 7, 7, trace, by)
        self.assertEqual([list(column).count(bytes.fromhex(sheet.FUNCTION_COLOURS[0][1:])) for column in seen.map], [1, 2, 3, 3, 3, 3, 3])
        self.assertEqual(list(seen.fills(7))[0], (1.0, 0.0, 1.0))

    def test_the_sixth_function_is_another(self):
        trace = SEVEN.replace("gc 1\nm 0 6", "a 0 8192 n 5\na 0 8192 n 6\na 0 8192 n 6\ngc 1\nm 0 9")
        text = SEVEN_REPORT.replace("j 0 0", "".join(f"o {at} {0xC000000000 + 8192 * at:#x}\n" for at in range(7, 10)) + "j 0 0").replace("s 1 0 1 0", "".join(f"j {at} 0 take {at} 1 103\n" for at in range(7, 10)) + "s 1 0 1 0")
        words = [self.put("r", text.replace("t 51 7", "".join(f"s 1 {at} 1 0\n" for at in range(7, 10)) + "t 51 10")), "--trace", self.put("t", trace), *self.paths[3:], "--functions"]
        # f0 has three, f6 two, and of those with one the first by name
        told = self.texts(*words)
        self.assertEqual([name for name in told if name.startswith("main.f") or name == sheet.OTHERS], ["main.f0", "main.f6", "main.f1", "main.f2", "main.f3", sheet.OTHERS])
        self.assertIn("main.f0: 3", self.texts(*words, "--pins"))
        self.assertIn("of other functions: 2", self.texts(*words, "--pins"))

    def test_functions_need_their_names(self):
        status, _, said = run("picture", self.paths[0], "--functions")
        self.assertEqual(status, 2)
        self.assertIn("--functions needs --trace and --stacks", said)

    def test_many_pages_make_a_histogram(self):
        # 400 spans of 341 slots of 24 bytes: of 100 the mark end keeps 341 objects, of 300 it keeps 34, which is just under a tenth
        lines = [f"j {at} 0 take {at} 1 6\n" for at in range(400)] + [f"s 1 {at} {341 if at < 100 else 34} 1\n" for at in range(400)]
        texts = self.texts(self.put("many", "".join(lines) + "end\n"))
        self.assertIn("how full the spans are at mark end 1, the last one: 400 spans of 3.12 MiB, by how full they are", texts)
        self.assertIn("100 %", texts)
        found = [course.Found(at, 1, 6, 341 if at < 100 else 34, 1) for at in range(400)]
        bars = picture.bars_of(found)
        self.assertEqual([spans for spans, _, _ in bars], [300, 0, 0, 0, 0, 0, 0, 0, 0, 100])
        self.assertAlmostEqual(bars[0][2], 300 * 34 * 24 / 8192)
        self.assertEqual(sum(pages for _, pages, _ in bars), 400)
        few = self.texts(self.put("few", "".join(lines[:3]) + "s 1 0 1 0\ns 1 1 1 0\ns 1 2 1 0\nend\n"))
        self.assertIn("how full each page is at mark end 1, the last one: 3 spans", few)

    def test_the_map_of_a_mark_end_takes_the_sheet(self):
        for count in (200, 519, 832, 1000, 5000, 20000):
            grid = pinmap.Grid(count)
            self.assertLessEqual(grid.height, pinmap.HEIGHT, count)
            self.assertGreater(grid.height, 0.55 * pinmap.HEIGHT, count)
        self.assertEqual(pinmap.Grid(100).columns, 16)

    def test_pages_that_are_no_span_s_have_their_colours(self):
        trace = "goheap 4\nheap 1 procs 1 rate 1 seed 1 goal 512\na 0 8192 n 0\ngc 1 all\nend\n"
        text = "o 0 0xc000004000\nj 0 0 hold 0 2\nj 1 0 take 2 1 103\ns 1 2 1 0\nt 51 1 0\nend\n"
        page = self.drawn(self.put("r", text), "--pins", "--trace", self.put("t", trace))
        held = [one for one in page.getElementsByTagName("path") if one.getAttribute("fill") == sheet.KINDS[pages.HELD][0]]
        self.assertEqual([one.getAttribute("d") for one in held], ["M90 78h112v56h-112z"])
        self.assertIn("stacks, and other uses", [one.firstChild.data for one in page.getElementsByTagName("text")])

    def test_a_dark_sheet(self):
        for words in self.both():
            style = self.drawn(*words).getElementsByTagName("style")[0].firstChild.data
            self.assertIn("@media (prefers-color-scheme:dark){svg{--ink:", style)
            for rect in self.drawn(*words).getElementsByTagName("rect"):
                self.assertNotIn(rect.getAttribute("fill"), ("#fff", "#ffffff", "#fafafa"))

    def test_what_a_reader_that_speaks_is_told(self):
        for words in self.both():
            root = self.drawn(*words).documentElement
            self.assertEqual(root.getAttribute("role"), "group")
            self.assertRegex(root.getAttribute("aria-label"), r"^server, go1\.21\.13, 2026-11-30\. (At the end 7 pages|Mark end 1 of 1: 7 pages)")
            parts = [one.getAttribute("aria-label") for one in root.getElementsByTagName("g") if one.getAttribute("role")]
            self.assertTrue(parts and all(parts))
        self.assertEqual(len([one for one in self.drawn().documentElement.childNodes if one.nodeName == "g"]), 5)

    def test_the_unused_region_shows_the_paper(self):
        data = picture.png([[bytes(3), b"\xff\xff\xff"]], 2)
        self.assertIn(b"tRNS" + b"\0\xff" * 3, data)

    def test_a_name_that_is_too_long_keeps_its_end(self):
        self.assertEqual(picture.cut("a" * 30 + ".(*Reader).ReadLine"), ".." + ("a" * 30 + ".(*Reader).ReadLine")[-34:])
        self.assertEqual(picture.cut("main.f"), "main.f")

    def test_the_day_of_a_recording(self):
        log = self.put("log", "tracealloc(0xc000000000, 0x10)\ngoroutine 1 [running]:\nruntime.mallocgc(0x10, 0x0, 0x0)\n\t/go/malloc.go:1\n\ntracegc()\nend tracegc\n\ntracegc()\nend tracegc\n\n")
        os.utime(log, (1_700_000_000, 1_700_000_000))
        stacks = os.path.join(self.folder.name, "s")
        status, _, said = run("record", log, "--stacks", stacks, "-o", os.path.join(self.folder.name, "t"))
        self.assertEqual(status, 0, said)
        with open(stacks) as file:
            self.assertRegex(file.read(), r"(?m)^# date\t2023-11-1[45]$")
