"""Tests of the tables by function, line and type, of their order, of the picture's words, and of what the docs name."""

import glob
import os
import re
import unittest
import xml.dom.minidom

from goheap_tools.formats import report
from goheap_tools.tests.testing import HERE, Folder, data, rows, run, text_of
from goheap_tools.views import course, picture

STACKS = (
    "# goheap stacks 2\n# rate\t1\n"
    "0\tmain.node\truntime.mallocgc /go/malloc.go:1\tmain.push /m.go:12\tmain.main /m.go:20\truntime.main /go/proc.go:250\n"
    "1\tuint8\truntime.mallocgc /go/malloc.go:1\truntime.makeslice /go/slice.go:103\tmain.buffer /m.go:16\tmain.main /m.go:21\truntime.main /go/proc.go:250\n"
    "2\t\truntime.mallocgc /go/malloc.go:1\truntime.panicIndex /go/panic.go:113\tpanic /go/panic.go:844\tmain.check /m.go:30\tmain.push /m.go:14\tmain.main /m.go:20\truntime.main /go/proc.go:250\n"
    "3\tmain.node\truntime.mallocgc /go/malloc.go:1\tmain.push /m.go:13\tmain.main /m.go:22\truntime.main /go/proc.go:250\n"
)
# At mark end 1: 10 nodes by line 12, 2 lists of 64 bytes, 1 of 8 bytes by a panic, 4 nodes by line 13. At mark end 2 the lists fell to 1 of 9, and line 13 grew to 5.
REPORT = "p 1 0 16 10 0\np 1 1 64 2 0\np 1 2 8 1 0\np 1 3 16 4 0\np 2 0 16 10 0\np 2 1 64 9 8\np 2 2 8 1 0\np 2 3 16 6 1\nend\n"


class Tables(Folder):
    def table(self, *words):
        stacks = self.put("stacks", STACKS)
        status, table, said = run("leaks", "-", "--stacks", stacks, *words, given=REPORT)
        self.assertEqual((status, said), (0, ""))
        return rows(table)

    def test_by_function(self):
        # main.push allocates at two lines; what the runtime allocates for a panic counts for main.check, which fails.
        table = self.table()
        self.assertEqual(table[0], "Mark end 2: 312B in use, 840B allocated; all objects".split())
        self.assertEqual(table[1], "Showing 5 of 5 functions in use, accounting for 312B, 100.0% of 312B total".split())
        self.assertEqual(table[2], "flat flat% sum% cum cum% objects allocated since 1 grew function".split())
        self.assertEqual([[row[0], row[3], row[5], row[6], row[7], row[8], row[9]] for row in table[3:]],
                         [["240B", "248B", "15", "256B", "16B", "1/1", "main.push"], ["64B", "64B", "1", "576B", "-64B", "0/1", "main.buffer"], ["8B", "8B", "1", "8B", "0B", "0/1", "main.check"],
                          ["0B", "312B", "0", "0B", "0B", "0/1", "main.main"], ["0B", "312B", "0", "0B", "0B", "0/1", "runtime.main"]])  # fmt: skip

    def test_by_line(self):
        table = self.table("--lines")
        self.assertEqual([[row[0], row[3], *row[9:]] for row in table[3:]],
                         [["160B", "160B", "main.push", "/m.go:12"], ["80B", "80B", "main.push", "/m.go:13"], ["64B", "64B", "main.buffer", "/m.go:16"], ["8B", "8B", "main.check", "/m.go:30"],
                          ["0B", "312B", "runtime.main", "/go/proc.go:250"], ["0B", "168B", "main.main", "/m.go:20"], ["0B", "80B", "main.main", "/m.go:22"], ["0B", "64B", "main.main", "/m.go:21"],
                          ["0B", "8B", "main.push", "/m.go:14"]])  # fmt: skip

    def test_by_type(self):
        self.assertEqual([[row[0], row[3], " ".join(row[7:])] for row in self.table("--types")[3:]], [["240B", "15", "main.node"], ["64B", "1", "[]uint8"], ["8B", "1", "(bytes without a type)"]])

    def test_filters(self):
        names = lambda *words: [row[-1] for row in self.table(*words)[3:]]
        table = self.table("--focus", "main\\.push")
        # of the 312 bytes in use main.push has 240, and what it calls 8
        self.assertEqual(table[0], "Mark end 2: 312B in use, 840B allocated; all objects; focus main\\.push".split())
        self.assertEqual(table[1], "Showing 4 of 4 functions in use, accounting for 248B, 79.5% of 312B total".split())
        self.assertEqual(names("--focus", "main\\.push"), ["main.push", "main.check", "main.main", "runtime.main"])
        self.assertEqual(names("--ignore", "main\\.push"), ["main.buffer", "main.main", "runtime.main"])
        self.assertEqual(names("--focus", "m.go:16"), ["main.buffer", "main.main", "runtime.main"])
        self.assertEqual(self.table("--hide", "main\\.(push|check)")[3][-1], "main.main")
        self.assertEqual([row[0] for row in self.table("--hide", "main\\.(push|check)")[3:]], ["248B", "64B", "0B"])
        self.assertEqual(names("--focus", "nobody"), [])
        for words, why in ((["--focus", "("], "is no regular expression"), (["--hide", "x", "--stacks", ""], "need --stacks")):
            status, _, said = run("leaks", "-", *words, given=REPORT)
            self.assertEqual(status, 2)
            self.assertIn(why, said)

    def test_goroutines_are_in_a_row_of_their_own(self):
        stacks = "# goheap stacks 2\n# rate\t1\n7\truntime.g\truntime.systemstack_switch /go/asm.s:1\tmain.serve /m.go:3\n"
        given = "o 0 0xc000000000\nj 0 0 take 0 1 56\ns 1 0 1 0\nt 28 1 0\np 1 7 512 1 0\nend\n"
        status, table, said = run("leaks", "-", "--stacks", self.put("other", stacks), given=given)
        self.assertEqual((status, [line.split()[0:1] + line.split()[-1:] for line in table.splitlines()[3:]]), (0, [["512B", "runtime.malg"], ["0B", "main.serve"]]))

    def test_another_rate_is_refused(self):
        # 100 objects of 16 bytes, of which the profile counts so many
        lines = "".join(f"o {one} {0xC000000000 + 16 * one:#x}\n" for one in range(100)) + "j 0 0 take 0 1 5\ns 1 0 100 0\nt 2 100 0\n"
        for rate, behind, count, why in ((1, 0, 100, None), (1, 5, 95, None), (1, 5, 94, "at the stacks' rate of 1 each counts"), (1, 0, 3, "counts 3 of 100 objects"), (16, 0, 100, None),
                                         (100, 0, 16, None), (524288, 0, 100, "there would be about 0")):  # fmt: skip
            stacks = self.put("stacks", f"# goheap stacks 2\n# rate\t{rate}\n# behind\t{behind}\n# mark ends\t1\n7\tmain.node\tmain.f /m.go:1\n")
            status, _, said = run("leaks", "-", "--stacks", stacks, given=f"{lines}p 1 7 16 {count} 0\nend\n")
            self.assertEqual(status, 2 if why else 0, said)
            if why:
                self.assertIn(f"leaks: standard input and {stacks} are of two recordings: the profile counts", said)
                self.assertIn(why, said)

    def test_orders(self):
        names = lambda *words: [row[-1] for row in self.table(*words)[3:]]
        self.assertEqual(names("--sort", "cum"), ["main.main", "runtime.main", "main.push", "main.buffer", "main.check"])
        self.assertEqual(names("--sort", "allocated"), ["main.buffer", "main.push", "main.check"])
        self.assertEqual(names("--sort", "grew")[:1] + names("--sort", "grew")[-1:], ["main.push", "main.buffer"])
        self.assertEqual([row[9] for row in self.table("--buckets", "--sort", "grew")[3:]], ["3", "0", "2", "1"])
        self.assertEqual(run("leaks", "-", "--stacks", "x", "--types", "--sort", "cum")[0], 2)

    def test_without_stacks_the_rate_is_asked_for(self):
        self.assertIn("the sampled objects as they are counted (all objects if the rate was 1; else see --scale)", run("leaks", "-", given=REPORT)[1])


class PictureWords(Folder):
    TRACE = "goheap 1\nheap 1 procs 1 rate 0 seed 1 goal 512\na 0 24 s 0\na 0 24 s 0\na 0 24 s 3\na 0 40000 n 1\ngc 1\nm 0 0\nm 2 2\nend\n"
    REPORT = ("o 0 0xc000000000\no 1 0xc000000018\no 2 0xc000000030\no 3 0xc000002000\nj 0 0 take 0 1 6\nj 1 0 take 1 5 1\nj 2 1 give 1 5\ns 1 0 2 1\ns 1 1 0 1\n"
              "t 0 1 1\nt 3 3 1\nend\n")  # fmt: skip

    def drawn(self, *words, given=REPORT):
        status, svg, said = run("picture", "-", *words, given=given)
        self.assertEqual((status, said), (0, ""))
        return xml.dom.minidom.parseString(svg)

    def titles(self, *words):
        return [node.firstChild.data.split("\n") for node in self.drawn(*words).getElementsByTagName("title")]

    def test_words_under_the_pointer(self):
        self.assertIn(["span at page 0 (0xc000000000)", "span class 6: objects of up to 24 bytes with pointers, room for 341", "mark end 1 kept 2 of them (1 % full), and freed 1", "taken in cycle 0"], self.titles())
        self.assertIn(["span at pages 1 to 5 (0xc000002000)", "one large object without pointers, in 40,960 bytes", "taken in cycle 0, and given back"], self.titles())
        named = self.titles("--trace", self.put("trace", self.TRACE), "--stacks", self.put("stacks", STACKS.replace("# rate\t1\n", "")))
        self.assertIn("1 of main.push /m.go:12", named[-1] + named[-2] + named[0] + named[1])

    def test_how_full_spans_are(self):
        read = report.read_report(self.REPORT.splitlines(True))
        seen = course.Course(read, 3, 6)
        self.assertEqual(seen.found, [course.Found(0, 1, 6, 2, 1), course.Found(1, 5, 1, 0, 1)])
        self.assertEqual(list(seen.fills(6))[:2], [(1.0, 0.0, 2 * 24 / 8192), (1.0, 0.0, 0.0)])
        texts = [node.firstChild.data for node in self.drawn().getElementsByTagName("text")]
        self.assertIn("how full each page is at mark end 1, the last one: 2 spans", texts)
        self.assertIn("At the end 6 pages (0.05 MiB) are backed, 1 of them in 1 spans. Mark end 1 kept 2 objects in slots of 0.00 MiB, in spans of 0.01 MiB: 1 % full.", texts)
        self.assertEqual(picture.mark_places(read.journal, 1), [(picture.LEFT + picture.WIDTH * 2 / 3, 1)])

    def test_the_last_mark_end_is_drawn(self):
        # No journal line comes behind the second one.
        read = report.read_report(self.REPORT.replace("t 0", "s 2 0 1 1\nt 0").splitlines(True))
        self.assertEqual(picture.mark_places(read.journal, 2)[-1], (picture.LEFT + picture.WIDTH, 2))
        lines = [node for node in self.drawn().getElementsByTagName("line") if node.getAttribute("stroke") == picture.LAST]
        self.assertEqual(len(lines), 4)

    def test_it_fits_any_window(self):
        root = self.drawn().documentElement
        self.assertEqual(root.getAttribute("viewBox").split(), ["0", "0", root.getAttribute("width"), root.getAttribute("height")])
        self.assertIn("max-width:100%", root.getAttribute("style"))

    def test_the_legend_says_what_a_span_is(self):
        told = " ".join(node.firstChild.data for node in self.drawn().getElementsByTagName("text"))
        for part in ("A span is a run of pages for objects of one size.", "class 2k and 2k + 1 are those of size class k", "the last mark end"):
            self.assertIn(part, told)

    def test_a_file_for_it(self):
        out = os.path.join(self.folder.name, "picture.svg")
        self.assertEqual(run("picture", "-", "-o", out, given=data("kinds.report"))[:2], (0, ""))
        self.assertTrue(text_of(out).endswith("</svg>\n"))


class Docs(unittest.TestCase):
    def test_each_option_of_the_docs_is_there(self):
        docs = text_of(os.path.join(HERE, "..", "docs", "recording.md"))
        options = set(re.findall(r"`(--[a-z-]+)", docs)) | set(re.findall(r" (--[a-z][a-z-]+)", docs))
        known = {f"--{table}" for table in ("functions", "lines", "types", "buckets")} | {"--each", "--no-tiny-blocks"}
        for path in glob.glob(os.path.join(HERE, "goheap_tools", "*", "*.py")):
            if os.path.basename(os.path.dirname(path)) != "tests":
                known |= set(re.findall(r'"(--[a-z-]+)"', text_of(path)))
        self.assertEqual(sorted(options - known), [])
        for asked in ("--keep-last", "--at", "--peak", "--from-mark-end", "--types", "--lines", "--sort"):
            self.assertIn(asked, options)

    def test_the_docs_say_the_agreement_for_four_processors(self):
        docs = text_of(os.path.join(HERE, "..", "docs", "recording.md"))
        self.assertTrue(re.search(r"\| one processor \|.* four processors \|", docs))
        self.assertTrue("not modelled" in docs)
