"""Tests of `look`: what the page carries, and in a real browser each view, what it answers to clicks and keys, and that its numbers are those
that `leaks` and `pins` print. Where there is no browser these are skipped; none is installed here."""

import base64
import functools
import glob
import json
import os
import re
import unittest

from goheap_tools.look.columns import Columns
from goheap_tools.progress import Steps
from goheap_tools.tests import made
from goheap_tools.tests.browser import Browser, browser_command
from goheap_tools.tests.testing import HERE, Folder, run, text_of
from goheap_tools.tool import size_text

EXAMPLES = os.path.join(HERE, "..", "examples")
VIEWS = ("summary", "time", "flame", "table", "heap", "pins", "two", "judged")
NO_BROWSER = "no browser is on this machine (Debian's package chromium)"
# The rows of a table as texts.
ROWS = "[...document.querySelectorAll('{} tbody tr')].map(row => [...row.cells].map(cell => cell.textContent))"


def plain(text):
    return int(text.replace(",", ""))


@functools.cache
def made_recording(objects, mark_ends, version):
    """The texts of a made recording, which several tests look at."""
    trace, stacks = made.made_trace(objects, mark_ends, version)
    return trace, made.modelled(trace), stacks


class Recorded(Folder):
    """Tests with recordings in a folder."""

    def recording(self, name, trace, report, stacks=None):
        """Writes a recording. Returns what its files' names begin with."""
        for kind, text in (("trace", trace), ("report", report), ("stacks", stacks)):
            if text is not None:
                self.put(f"{name}.{kind}", text)
        return os.path.join(self.folder.name, name)

    def made(self, name="made", objects=1500, mark_ends=5, version=1):
        return self.recording(name, *made_recording(objects, mark_ends, version))

    def page(self, *words, name="page.html"):
        """Makes a page. Returns its path."""
        path = os.path.join(self.folder.name, name)
        status, _, said = run("look", *words, "-o", path)
        self.assertEqual(status, 0, said)
        return path


class Parts(Recorded):
    def test_columns(self):
        columns, given = Columns(), {"small": [0, 255, 3], "wide": [0, 70000, 5], "below": [-1, 127], "far": [2**40, 3], "none": []}
        for name, numbers in given.items():
            columns.add(name, numbers)
            columns.add(f"{name}, rising", numbers, True)
        for name, numbers in given.items():
            self.assertEqual((columns.numbers(name), columns.numbers(f"{name}, rising")), (numbers, numbers))
        self.assertEqual([columns.table[name][0] for name in given], ["B", "I", "b", "d", "B"])
        with self.assertRaises(OverflowError):
            columns.add("past what the page's numbers hold", [2**53])

    def test_one_file_without_the_network(self):
        text = text_of(self.page(self.made()))
        self.assertEqual(re.findall(r"\b(?:src|href)=[\"']?([^\s>\"']*)", text), ["data:,"])
        self.assertNotIn("http://", text)
        self.assertNotIn("https://", text)
        self.assertIn("default-src 'none'", text)

    def test_texts_cannot_end_the_script(self):
        front = self.recording("odd", "goheap 1\nheap 1 procs 1 rate 1 seed 1 goal 512\na 0 16 s 0\ngc 1\nm 0 0\nend\n",
                               "o 0 0xc000000000\nj 0 0 take 0 1 4\ns 1 0 1 0\nt 2 1 0\np 1 0 16 1 0\nend\n", "# goheap stacks 2\n# program\t</script><b>\n0\t\tmain.<f> a.go:1\n")  # fmt: skip
        text = text_of(self.page(front))
        self.assertEqual(len(re.findall("</script>", text)), 3)

    def test_the_steps_are_told(self):
        path = os.path.join(self.folder.name, "page.html")
        status, _, said = run("look", self.made(), "-o", path)
        self.assertEqual(status, 0)
        self.assertRegex(said, r"\A(look: [1-5] of 5, [^\n]*: [0-9.]+ s\n){5}look: the page is .*page\.html \([0-9.]+ MB\)\n\Z")

    def test_how_far_a_step_is(self):
        step = Steps("look", 3).step("reads", 10)
        self.assertEqual((step.front(), step.far(2.5), step.far(30)), ("look: 1 of 3, reads", "25 %, about 8 s left", "99 %, some seconds more than expected"))
        self.assertEqual(Steps("look", 1).step("records").far(4), "4 s so far")

    def test_what_cannot_be_looked_at(self):
        front = self.made()
        for words, why in (
            (["nothing"], "nothing: no recording: it is no folder with a file `trace`, and there is no nothing.trace"),
            ([f"{front}.trace", os.path.join(EXAMPLES, "leak.report")], "it is no report of this trace"),
            ([f"{front}.report", f"{front}.report"], "this is a report, and no trace"),
        ):
            status, _, said = run("look", *words, "-o", os.path.join(self.folder.name, "none"))
            self.assertEqual(status, 2)
            self.assertIn(why, said)
            self.assertFalse(os.path.exists(os.path.join(self.folder.name, "none")))
        self.assertEqual(run("look", "--")[0], 2)

    def test_the_summary(self):
        # Stack 0 keeps each of its objects of 1024 bytes, one a cycle; stack 1 drops its own at once.
        trace, alive = "goheap 1\nheap 1 procs 1 rate 1 seed 1 goal 512\n", []
        for number in range(0, 8, 2):
            alive.append(number)
            trace += "a 0 1024 s 0\na 0 1024 s 1\ngc 4194304\n" + "".join(f"m {one} {one}\n" for one in alive)
        trace += "end\n"
        front = self.recording("leaking", trace, made.modelled(trace), "# goheap stacks 2\n# program\tp\n0\tT\tmain.keep a.go:3\tmain.main a.go:9\n1\tT\tmain.drop a.go:5\tmain.main a.go:9\n")
        sentences = [one["text"] for one in json.loads(re.search(r'id="meta">(.*?)</script>', text_of(self.page(front)), re.S).group(1))["sentences"]]
        self.assertEqual(sentences[0], "main.keep leaks, or fills a cache: what it allocated and is in use grew at 3 of 3 mark ends, from 1.00kB to 4.00kB, 100.0 % of all that is live. It allocates at a.go:3.")
        self.assertIn("At mark end 4, the last one, 4.00kB are live in slots, 4 objects; the most by main.keep (4.00kB, 100.0 %), main.drop (0B, 0.0 %).", sentences)

    def test_a_long_recording_is_sound(self):
        front = self.recording("long", *made.long_recording(3000, 50))
        self.assertEqual(run("explain", f"{front}.trace", f"{front}.report")[1], "The report meets all nine rules: it is sound.\n")


class Growing(Recorded):
    """`leaks --base OLD NEW`."""

    STACKS = "# goheap stacks 2\n# program\tp\n0\tT\tmain.keep a.go:3\n1\tT\tmain.drop a.go:5\n"

    def kept(self, name, counts):
        """A recording whose mark end finds so many objects of 1024 bytes of each stack alive."""
        trace = "goheap 1\nheap 1 procs 1 rate 1 seed 1 goal 512\n" + "".join("a 0 1024 s %d\n" % stack * count for stack, count in enumerate(counts))
        return self.recording(name, f"{trace}gc 1\nm 0 {sum(counts) - 1}\nend\n", None, self.STACKS)

    def test_what_grew(self):
        old, new = self.kept("old", (10, 4)), self.kept("new", (20, 1))
        status, said, _ = run("leaks", "--base", old, new)
        self.assertEqual(status, 0)
        # 21 objects for 14: 1.5 times as many, so that main.keep has 20 - 15 and main.drop 1 - 6 more than the base would.
        self.assertEqual([line.split() for line in said.splitlines()[2:]], [
            "base now change normalised objects function".split(),
            "10.00kB 20.00kB +10.00kB +5.00kB +10 main.keep".split(),
            "4.00kB 1.00kB -3.00kB -5.00kB -3 main.drop".split(),
        ])  # fmt: skip

    def test_the_limit(self):
        old, new = self.kept("old", (10, 4)), self.kept("new", (20, 1))
        for limit, status in (("9KB", 1), ("10KB", 0), ("10239", 1), ("10240B", 0), ("71%", 1), ("72%", 0)):
            ended, said, _ = run("leaks", "--base", old, new, "--fail-over", limit)
            self.assertEqual((ended, "main.keep grew by 10.00kB" in said), (status, status == 1), limit)
        self.assertEqual(run("leaks", "--base", new, old, "--fail-over", "1")[0], 1)
        for words in (["--base", old], ["--base", old, new, "--fail-over", "x"], [f"{new}.report", "--fail-over", "1"], ["--base", old, new, "--buckets"]):
            self.assertEqual(run("leaks", *words)[0], 2, words)

    def test_for_scripts(self):
        old, new = self.kept("old", (10, 0)), self.kept("new", (20, 1))
        status, said, _ = run("leaks", "--base", old, new, "--fail-over", "64B", "--json")
        told = json.loads(said)
        self.assertEqual((status, told["over"], told["ratio"], told["base"]["in_use"], told["in_use"]), (1, ["main.keep", "main.drop"], 2.1, 10240, 21504))
        self.assertEqual(told["rows"][0], {"name": "main.keep", "base": 10240, "live": 20480, "base_objects": 10, "objects": 20, "base_allocated": 10240, "allocated": 20480, "normalised": -1024, "change": 10240})


class Json(Recorded):
    """The tables for scripts have the numbers of the tables for people."""

    def test_leaks(self):
        front = self.made()
        words = [f"{front}.report", "--trace", f"{front}.trace", "--stacks", f"{front}.stacks"]
        for kind in ("--functions", "--lines", "--types", "--buckets"):
            told = json.loads(run("leaks", *words, kind, "--json")[1])
            shown = run("leaks", *words, kind, "--top", "9999")[1].splitlines()
            self.assertEqual(len(told["rows"]), len([line for line in shown[3:] if line.strip()]))
            for row, line in zip(told["rows"], shown[3:]):
                self.assertEqual((size_text(row["flat"]), row["name"]), (line.split()[0], line[-len(row["name"]) :]))
            self.assertEqual(sum(row["flat"] for row in told["rows"]), told["in_use"])

    def test_pins(self):
        front = self.made()
        words = [f"{front}.trace", f"{front}.report", "--stacks", f"{front}.stacks", "--without", "3"]
        told = json.loads(run("pins", *words, "--json")[1])
        rows = [line.split(",") for line in run("pins", *words, "--csv")[1].splitlines()]
        self.assertEqual([str(row["pinned"]) for row in told["stack"]], [row[3] for row in rows if row[0] == "stack"][1:])
        self.assertEqual({name.replace(" ", "_"): int(size) for _, name, size in [row for row in rows if row[0] == "sum"][1:]}, told["sum"])
        self.assertEqual(list(map(str, told["without"][0].values())), [row for row in rows if row[0] == "without"][1][1:])


@unittest.skipUnless(browser_command(), NO_BROWSER)
class InABrowser(Recorded):
    """The page as a person sees it."""

    @classmethod
    def setUpClass(cls):
        cls.browser = Browser()
        cls.addClassCleanup(cls.browser.close)

    def setUp(self):
        super().setUp()
        self.browser.forget()

    def ends_well(self):
        """Nothing went wrong in the page, and nothing but files was asked for."""
        self.assertEqual(self.browser.errors, [])
        self.assertEqual([one for one in self.browser.requests if not one.startswith(("file://", "data:", "about:"))], [])

    def rows(self, table):
        return self.browser.ask(ROWS.format(table))

    def told(self, selector):
        return self.browser.ask(f"document.querySelector({json.dumps(selector)}).textContent")

    def fragment(self):
        return self.browser.ask("Object.fromEntries(new URLSearchParams(location.hash.slice(1)))")

    def all_views(self, path, fragment=""):
        """Goes through all views by their keys. Each must have a title and something in it."""
        self.browser.open(path, fragment)
        for number, view in enumerate(VIEWS, 1):
            self.browser.press(str(number), f"Digit{number}")
            self.assertTrue(self.browser.ask(f"(() => {{ const one = document.getElementById('view-{view}'); return !one.hidden && one.children.length > 1 && one.innerText.length > 20; }})()"), view)
            self.assertEqual(self.browser.ask("document.querySelectorAll('section:not([hidden])').length"), 1)

    def same_pins(self, front, mark_end, path):
        """The numbers of the page are those that `pins` prints."""
        words = [f"{front}.trace", f"{front}.report", "--at", str(mark_end), "--json"]
        told = json.loads(run("pins", *words)[1])
        self.browser.open(path, f"#view=pins&pinRows=stack&at={mark_end}")
        sums = dict(self.browser.ask("[...document.querySelectorAll('#sums tbody tr')].map(row => [row.dataset.part, row.cells[0].textContent])"))
        expected = {name: f"{size:,}" for name, size in told["sum"].items() if name != "not_placed"}
        self.assertEqual({name.replace(" ", "_"): size for name, size in sums.items()}, expected)
        shown = {int(row[-1].split()[0]): [plain(row[at]) for at in (1, 2, 4, 5, 6)] for row in self.rows("#pin-rows")}
        self.assertEqual(shown, {row["number"]: [row[name] for name in ("own", "pinned", "spans", "shared", "objects")] for row in told["stack"]})
        classes = [[cell.replace("·", "0") for cell in row] for row in self.rows("#classes")]
        eighths = [f"to_{step}_eighths" for step in range(1, 9)]
        self.assertEqual(classes, [[f"{row['slot']:,}" if row["slot"] != "large" else "large", f"{row['spans']:,}", f"{row['objects']:,}", *(str(row[one]) for one in eighths), f"{row['free_slots']:,}"] for row in told["class"]])

    def same_leaks(self, front, kind, words, mark_end, mark_ends, path):
        """The rows of the table are those that `leaks` prints."""
        self.browser.open(path, f"#view=table&rows={kind}&at={mark_end}")
        told = json.loads(run("leaks", f"{front}.report", "--trace", f"{front}.trace", *words, "--at", str(mark_end), "--json")[1])
        titles = self.browser.ask("[...document.querySelectorAll('#rows thead button')].map(one => one.dataset.sort)")
        shown = {row[-1]: dict(zip(titles, row)) for row in self.rows("#rows")}
        self.assertEqual(len(shown), len(told["rows"]))
        for row in told["rows"]:
            found = shown[row["name"]]
            self.assertEqual([found[name] for name in ("flat", "objects", "allocated", "allocs")], [size_text(row["flat"]), f"{row['objects']:,}", size_text(row["allocated"]), f"{row['allocs']:,}"], row["name"])
            self.assertEqual((found["growth"].lstrip("+"), found["grew"]), (size_text(row["growth"]), f"{row['grew']}/{mark_end - 1}"))
            self.assertEqual(found.get("cum"), size_text(row["cum"]) if "cum" in row else None)
        self.assertIn(f"{size_text(told['in_use'])} in use, {size_text(told['allocated'])} allocated", self.told("#table-told"))

    def test_the_examples(self):
        for trace in sorted(glob.glob(os.path.join(EXAMPLES, "*.trace"))):
            front = trace.removesuffix(".trace")
            with self.subTest(os.path.basename(front)):
                path = self.page(front)
                self.all_views(path)
                mark_ends = len(re.findall("^gc ", text_of(trace), re.M))
                for mark_end in range(1, mark_ends + 1):
                    self.same_pins(front, mark_end, path)
                self.ends_well()

    def test_the_numbers_are_those_of_the_tools(self):
        for version in (1, 2, 3):
            front = self.made(f"made{version}", version=version)
            path = self.page(front)
            for mark_end in (1, 3, 5):
                self.same_pins(front, mark_end, path)
            for kind, words in (("function", ["--functions"]), ("line", ["--lines"]), ("type", ["--types"])):
                self.same_leaks(front, kind, ["--stacks", f"{front}.stacks", *words], 5 if version < 3 else 4, 5, path)
        self.ends_well()

    def test_functions_pin_and_would_come_back(self):
        front = self.made()
        words = [f"{front}.trace", f"{front}.report", "--stacks", f"{front}.stacks", "--functions", "--json"]
        self.browser.open(self.page(front), "#view=pins")
        told = json.loads(run("pins", *words)[1])["function"]
        shown = {row[-1]: [plain(row[at]) for at in (1, 2, 4, 7, 8)] for row in self.rows("#pin-rows")}
        self.assertEqual(shown, {row["name"]: [row[one] for one in ("own", "pinned", "spans", "cum_own", "cum_pinned")] for row in told})
        name = told[0]["name"]
        self.browser.click(f"[data-without='{name}']")
        self.assertEqual(self.fragment()["without"], name)
        gone = json.loads(run("pins", *words, "--without", name)[1])["without"][0]
        self.assertIn(f"Without {name} ({gone['objects']:,} live object", self.told(".without"))
        self.assertIn(f"{gone['spans']:,} span", self.told(".without"))
        self.assertIn(f"with one of them: {gone['longest_run_that_comes_back']:,}; of all free pages: {gone['longest_run_then']:,}, now {gone['longest_run_now']:,}", self.told(".without"))
        self.ends_well()

    def test_one_choice_in_all_views(self):
        path = self.page(self.made())
        self.browser.open(path, "#view=table")
        name = self.rows("#rows")[0][-1]
        self.browser.click("#rows tbody tr")
        self.assertEqual(self.fragment()["choice"], f"function:{name}")
        self.browser.press("6", "Digit6")
        self.assertEqual(self.browser.ask("document.querySelector('#pin-rows tr.chosen .name').textContent"), name)
        self.browser.press("5", "Digit5")
        self.assertIn(f"{name} has objects in ", self.told("#heap-told"))
        self.browser.press("2", "Digit2")
        self.assertIn(name, self.told("#view-time figcaption"))
        address = self.browser.ask("location.hash")
        self.browser.open(path, address)
        self.assertEqual(self.told("#chosen-text"), name)
        self.browser.click("#forget")
        self.assertNotIn("choice", self.fragment())
        self.ends_well()

    def test_time_chooses_the_mark_end(self):
        self.browser.open(self.page(self.made()), "#view=time")
        self.browser.click("#view-time canvas", 0.5)
        self.assertEqual(self.fragment()["at"], "3")
        self.browser.press("ArrowRight")
        self.assertEqual(self.fragment()["at"], "4")
        self.browser.press("4", "Digit4")
        self.assertIn("Mark end 4 of 5", self.told("#table-told"))
        self.ends_well()

    def test_the_flame_graph(self):
        path = self.page(self.made())
        for metric in ("live bytes", "live objects", "allocated bytes", "allocated objects", "pinned bytes", "growth", "shrinkage"):
            for by in ("function", "line", "package", "type"):
                self.browser.open(path, f"#view=flame&metric={metric}&by={by}&inverted={'yes' if by == 'line' else 'no'}".replace(" ", "+"))
                self.assertRegex(self.told("#flame-told"), r"^[0-9]")
        self.browser.open(path, "#view=flame")
        left, top = self.browser.place("#flame-place canvas", 0, 0)
        self.browser.click_at(left + 5, top + 50)
        chosen = self.fragment()
        self.assertTrue(chosen["choice"].startswith("function:"))
        self.assertEqual(chosen["zoom"], "0.0")
        self.browser.press("Escape")
        self.assertEqual(self.fragment()["zoom"], "0")
        self.browser.press("Escape")
        self.assertNotIn("zoom", self.fragment())
        for key in ("ArrowDown", "ArrowDown", "Enter"):
            self.browser.press(key)
        self.assertEqual(self.fragment()["zoom"], "0.0")
        self.browser.type("#flame-find", "csv")
        self.assertRegex(self.told("#flame-told"), r"Frames with “csv”: [0-9.]+k?B, [0-9.]+%\.")
        self.ends_well()

    def test_the_flame_graph_has_all_that_is_live(self):
        front = self.made()
        self.browser.open(self.page(front), "#view=flame")
        told = json.loads(run("leaks", f"{front}.report", "--trace", f"{front}.trace", "--stacks", f"{front}.stacks", "--json")[1])
        self.assertTrue(self.told("#flame-told").startswith(f"{size_text(told['in_use'])} live bytes"))
        self.browser.open(os.path.join(self.folder.name, "page.html"), "#view=flame&metric=pinned+bytes")
        spans = json.loads(run("pins", f"{front}.trace", f"{front}.report", "--json")[1])["class"]
        self.assertTrue(self.told("#flame-told").startswith(f"{size_text(sum(row['pages'] for row in spans) * 8192)} pinned bytes"))

    def test_the_table(self):
        self.browser.open(self.page(self.made()), "#view=table")
        self.browser.click("[data-sort=allocs]")
        counts = [plain(row[5]) for row in self.rows("#rows")]
        self.assertEqual(counts, sorted(counts, reverse=True))
        self.browser.click("[data-sort=allocs]")
        self.assertEqual([plain(row[5]) for row in self.rows("#rows")], sorted(counts))
        self.assertEqual(self.browser.ask("document.querySelector('#rows [aria-sort=ascending]').textContent"), "allocs")
        self.browser.type("#filter", "csv")
        names = [row[-1] for row in self.rows("#rows")]
        self.assertTrue(names and all("csv" in name for name in names))
        self.browser.call("Browser.grantPermissions", permissions=["clipboardReadWrite", "clipboardSanitizedWrite"])
        self.browser.click("#copy-csv")
        copied = self.browser.wait("navigator.clipboard.readText()").splitlines()
        self.assertEqual((copied[0], len(copied)), ("flat,share,cum,objects,allocated,allocs,growth,grew,function", len(names) + 1))
        for kind in ("line", "type", "stack", "slot size", "package"):
            self.browser.ask(f"(() => {{ const list = document.getElementById('rows-list'); list.value = '{kind}'; list.dispatchEvent(new Event('change')); }})()")
            self.assertEqual(self.fragment()["rows"], kind)
        self.ends_well()

    def test_the_heap_down_to_a_slot(self):
        front = self.made()
        self.browser.open(self.page(front), "#view=heap")
        self.browser.click("#map-place canvas", 0.02, 0.05)
        self.assertEqual(self.fragment()["page"], "0")
        said = self.told("#span-place")
        self.assertIn("Span at page 0", said)
        self.assertIn("j 0 0 take 0", said)
        addresses = re.findall("^o ([0-9]+) (0x[0-9a-f]+)$", text_of(f"{front}.report"), re.M)
        shown = self.browser.ask("[...document.querySelectorAll('#span-place .mono')].map(one => one.textContent)")
        self.assertTrue(shown and set(shown) <= {address for _, address in addresses})
        self.browser.press("ArrowRight")
        self.assertNotEqual(self.fragment()["page"], "0")
        for colour in ("size class", "age", "function", "fill"):
            self.browser.ask(f"(() => {{ const list = document.getElementById('colour-list'); list.value = '{colour}'; list.dispatchEvent(new Event('change')); }})()")
            self.assertTrue(self.told("#map-legend"))
        self.browser.click("#zoom-in")
        self.browser.click("#zoom-out")
        self.browser.click("#span-place tbody tr")
        self.assertTrue(self.fragment()["choice"].startswith("function:"))
        self.ends_well()

    def test_the_map_has_the_pages(self):
        # Four pages: two spans that are kept, one that the mark end empties, and one behind it that is kept.
        trace = "goheap 1\nheap 1 procs 1 rate 0 seed 1 goal 512\na 0 8192 s 0\na 0 8192 s 0\na 0 8192 s 0\na 0 8192 s 0\ngc 1\nm 0 1\nm 3 3\nend\n"
        self.browser.open(self.page(self.recording("four", trace, made.modelled(trace))), "#view=heap&scale=16")
        points = self.browser.ask("""(() => { const canvas = document.querySelector('#map-place canvas'), draw = canvas.getContext('2d');
            return [0, 1, 2, 3, 4].map(page => [...draw.getImageData(16 * page + 5, 5, 1, 1).data].slice(0, 3).join()); })()""")
        full, free = "33,102,172", "201,201,201"
        self.assertEqual(points[:4], [full, full, free, full])
        self.assertNotIn(points[4], (full, free))

    def test_two_recordings(self):
        old, new = self.made("old", 1500), self.made("new", 2000)
        path = self.page("--base", old, new)
        self.all_views(path)
        self.browser.open(path, "#view=two")
        told = json.loads(run("leaks", "--base", old, new, "--json")[1])
        shown = {row[-1]: row for row in self.rows("#two-rows")}
        self.assertEqual(len(shown), len(told["rows"]))
        for row in told["rows"]:
            base, now, change = shown[row["name"]][:3]
            self.assertEqual((base, now, change.lstrip("+")), (size_text(row["base"]), size_text(row["live"]), size_text(row["change"])), row["name"])
        self.browser.click("#two-rows tbody tr")
        self.assertTrue(self.fragment()["choice"].startswith("function:"))
        self.browser.click("[data-wide=base]")
        left, top = self.browser.place("#two-place canvas", 0, 0)
        self.browser.click_at(left + 5, top + 50)
        self.assertEqual(self.fragment()["zoom"], "0.0")
        self.ends_well()

    def test_judged(self):
        self.browser.open(self.page(os.path.join(EXAMPLES, "leak")), "#view=judged")
        self.assertRegex(self.told("#view-judged"), "check ok|it is sound")
        self.browser.open(self.page(os.path.join(EXAMPLES, "pointers-apart.trace"), os.path.join(EXAMPLES, "pointers-apart.exchanged")), "#view=judged")
        self.assertIn("rule 4", self.told("#view-judged"))
        self.ends_well()

    def test_two_sizes_of_window_and_the_dark(self):
        path = self.page(self.made())
        for dark in (False, True):
            self.browser.shade(dark)
            for width, height in ((1400, 900), (640, 800)):
                self.browser.resize(width, height)
                for view in VIEWS:
                    self.browser.open(path, f"#view={view}&page=3")
                    self.assertLessEqual(self.browser.ask("document.documentElement.scrollWidth"), width, view)
            paper = self.browser.ask("getComputedStyle(document.body).backgroundColor")
            self.assertEqual(sum(map(int, re.findall("[0-9]+", paper))) < 300, dark)
        self.ends_well()

    def test_roles_and_labels(self):
        path = self.page(self.made())
        for view in VIEWS:
            self.browser.open(path, f"#view={view}&page=3")
            bare = self.browser.ask("""[...document.querySelectorAll('button, select, input, canvas, [role=tabpanel]')].filter(one => one.checkVisibility() && !(one.getAttribute('aria-label') || one.getAttribute('aria-labelledby')
                || one.textContent.trim() || one.labels?.length)).map(one => one.outerHTML)""")
            self.assertEqual(bare, [], view)
        self.assertEqual(self.browser.ask("[...document.querySelectorAll('[role=tab]')].filter(one => one.tabIndex === 0).length"), 1)
        self.browser.ask("document.querySelector('[role=tab][aria-selected=true]').focus()")
        self.browser.press("ArrowRight")
        self.assertEqual(self.browser.ask("document.activeElement.id"), "tab-summary")

    def test_paper(self):
        self.browser.open(self.page(self.made()), "#view=table")
        printed = base64.b64decode(self.browser.call("Page.printToPDF")["data"])
        self.assertTrue(printed.startswith(b"%PDF"))
        self.assertGreaterEqual(len(re.findall(rb"/Type\s*/Page\b", printed)), len(VIEWS) - 2)
        self.ends_well()

    def test_no_mark_end(self):
        trace = "goheap 1\nheap 1 procs 1 rate 1 seed 1 goal 512\na 0 16 s 0\nend\n"
        self.all_views(self.page(self.recording("none", trace, made.modelled(trace))))
        self.assertIn("no mark end", self.browser.ask("document.querySelector('#view-summary').textContent"))
        self.ends_well()

    def test_a_million_objects(self):
        front = self.recording("long", *made.long_recording(1_000_000))
        path = self.page(front, "--no-judge")
        self.assertLess(os.path.getsize(path), 8_000_000)
        self.all_views(path)
        self.same_pins_sums(front, path)
        self.browser.click("#tab-heap")
        self.browser.click("#map-place canvas", 0.3, 0.3)
        self.assertIn("Span at page", self.told("#span-place"))
        self.ends_well()

    def same_pins_sums(self, front, path):
        told = json.loads(run("pins", f"{front}.trace", f"{front}.report", "--json")[1])
        self.browser.open(path, "#view=pins")
        sums = dict(self.browser.ask("[...document.querySelectorAll('#sums tbody tr')].map(row => [row.dataset.part, row.cells[0].textContent])"))
        self.assertEqual({name.replace(" ", "_"): plain(size) for name, size in sums.items()}, {name: size for name, size in told["sum"].items() if name != "not_placed"})
