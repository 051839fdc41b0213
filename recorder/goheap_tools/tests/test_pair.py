"""The real reports of real programs under the plain judge: `pair` makes trace and report of a recording, and each of the ten rules is obeyed. A single
change of such a report is refused by the rule that it breaks."""

import contextlib
import io
import os
import re

from goheap_tools.cli import look
from goheap_tools.cli import pair as command
from goheap_tools.formats import report, stacks, traces
from goheap_tools.heap import rules
from goheap_tools.inside.pair import Pair, neighbours, pair_of, report_lines, trace_lines
from goheap_tools.inside.recording import Recording
from goheap_tools.tool import Unusable

from . import test_inside_runs, verdict
from .go_tools import recorded, toolchains

RUNS = ("small", "tiny", "large", "finalizers", "given", "processors", "forty", "few")


def judged(trace: str, text: str):
    """The first fault of a report, or nothing."""
    return rules.first_fault(traces.read_trace(trace.splitlines(True)), report.read_report(text.splitlines(True)))


def texts(path: str):
    """Trace and report of a recording, and what was found."""
    with Recording(path) as recording:
        pair = pair_of(recording)
    return "".join(trace_lines(pair)), "".join(report_lines(pair)), pair


class RealRuns(test_inside_runs.Runs):
    @classmethod
    def setUpClass(cls):
        super().setUpClass()
        print(f"the real runs are {verdict.name()}", flush=True)

    def test_each_rule_is_obeyed(self):
        newest = max(toolchains())
        for version in toolchains():
            program = recorded(version, "heaps")
            for processors in (1, 4) if version == newest else (4,):
                for run in RUNS:
                    with self.subTest(version=version, processors=processors, run=run):
                        path = self.path(f"{version}-{processors}-{run}")
                        self.run_program([program, run], path, processors=processors)
                        trace, text, pair = texts(path)
                        self.assertEqual(verdict.verdict(trace, text)[0], "sound")
                        self.assertGreater(pair.last, 0)
                        self.assertTrue(any(line.startswith("s ") and not line.endswith(" 0\n") for line in text.splitlines(True)), "nothing was freed")

    def test_every_size_up_to_40000_with_and_without_pointers(self):
        version = max(toolchains())
        path = self.path("sizes")
        self.run_program([recorded(version, "heaps"), "sizes"], path, processors=1)
        trace, text, _ = texts(path)
        asked = {letter: {int(size) for size in re.findall(rf"(?m)^a \d+ (\d+) {letter} ", trace)} for letter in "sn"}
        self.assertEqual(asked["n"] & set(range(1, 40001)), set(range(1, 40001)))
        self.assertLessEqual(set(range(8, 40001, 8)), asked["s"])
        self.assertEqual(verdict.verdict(trace, text)[0], "sound")

    def test_a_single_change_is_refused(self):
        version = max(toolchains())
        path = self.path("changed")
        self.run_program([recorded(version, "heaps"), "small"], path, processors=4)
        trace, text, _ = texts(path)
        lines = text.splitlines(True)
        at = lambda pattern: next(number for number, line in enumerate(lines) if re.match(pattern, line))
        changes = {
            "an object at the next slot's address": (at(r"o \d+ 0x[0-9a-f]+0\n"), lambda line: line[:-2] + "8\n", None),
            "a sweep that keeps one more": (at(r"s \d+ \d+ [1-9]\d* \d+\n"), lambda line: self.raised(line, 3), 7),
            "a sweep that frees one more": (at(r"s \d+ \d+ [1-9]\d* \d+\n"), lambda line: self.raised(line, 4), 7),
            "a take of the page behind": (at(r"j \d+ \d+ take "), lambda line: self.raised(line, 4), 2),
            "a take of another class": (at(r"j \d+ \d+ take \d+ 1 "), lambda line: self.raised(line, 6, 2), None),
            "a hold of a page less": (at(r"j \d+ \d+ hold \d+ ([2-9]|\d\d+)\n"), lambda line: self.raised(line, 5, -1), 2),
            "a cut of the page behind": (at(r"j \d+ \d+ cut "), lambda line: self.raised(line, 5), 2),
            "a total with one more": (at(r"t \d+ \d+ \d+\n"), lambda line: self.raised(line, 2), 8),
            "a bucket with one less freed": (at(r"p \d+ \d+ \d+ \d+ [1-9]\d*\n"), lambda line: self.raised(line, 5, -1), 9),
        }
        for what, (number, change, rule) in changes.items():
            with self.subTest(what=what):
                fault = judged(trace, "".join([*lines[:number], change(lines[number]), *lines[number + 1 :]]))
                self.assertIsNotNone(fault)
                self.assertIn(fault.rule, (rule,) if rule else range(2, 7))

    def test_a_give_that_is_not_told_is_refused(self):
        path = self.path("dropped")
        self.run_program([recorded(max(toolchains()), "heaps"), "large"], path, processors=1)
        trace, text, _ = texts(path)
        lines = text.splitlines(True)
        gone = next(number for number, line in enumerate(lines) if " give " in line)
        journal = [number for number, line in enumerate(lines) if line.startswith("j ")]
        for number in range(gone + 1, journal[-1] + 1):
            lines[number] = self.raised(lines[number], 1, -1)
        fault = judged(trace, "".join(lines[:gone] + lines[gone + 1 :]))
        self.assertIsNotNone(fault)
        self.assertIn(fault.rule, (2, 7))

    def raised(self, line: str, place: int, by: int = 1) -> str:
        words = line.split()
        words[place] = str(int(words[place]) + by)
        return " ".join(words) + "\n"

    def test_the_command_writes_three_files_of_one_recording(self):
        version = max(toolchains())
        path = self.path("one run.heap")
        self.run_program([recorded(version, "heaps"), "tiny"], path, processors=2)
        with contextlib.redirect_stderr(io.StringIO()) as said:
            self.assertEqual(command.main([path]), 0)
        front = path[: -len(".heap")]
        self.assertIn(front + ".report", said.getvalue())
        trace, found, known = traces.trace_in(front + ".trace"), report.report_in(front + ".report"), stacks.stack_file(front + ".stacks")
        self.assertIsNone(rules.first_fault(trace, found))
        self.assertEqual(known.number("objects"), len(trace.sizes))
        self.assertEqual(known.number("mark ends"), trace.mark_ends)
        self.assertTrue(any(any(frame.startswith("main.tiny ") for frame in frames) for frames in known.frames.values()))

    def test_a_page_of_the_real_heap(self):
        path, page = self.path("one run.heap"), self.path("page.html")
        self.run_program([recorded(max(toolchains()), "heaps"), "small"], path, processors=2)
        with contextlib.redirect_stderr(io.StringIO()):
            self.assertEqual(look.main([path, "-o", page]), 0)
        with open(page, encoding="utf-8") as file:
            text = file.read()
        self.assertIn("The report meets all ten rules: it is sound.", text)
        self.assertIn("<title>heaps-", text)

    def test_a_recording_that_begins_later_has_no_pair(self):
        path = self.path("later")
        self.run_program([recorded(max(toolchains()), "heaps"), "small"], path, processors=1, **{"from": 1})
        with Recording(path) as recording, self.assertRaisesRegex(Unusable, "does not begin with its program"):
            pair_of(recording)
        self.assertTrue(os.path.getsize(path))


class Neighbours(test_inside_runs.unittest.TestCase):
    def test_neighbouring_numbers_are_one_run(self):
        self.assertEqual(neighbours([5, 3, 4, 9, 0]), [(0, 0), (3, 5), (9, 9)])
        self.assertEqual(neighbours([]), [])

    def test_a_program_that_did_nothing_is_a_trace_too(self):
        self.assertEqual("".join(trace_lines(Pair())), "goheap 4\nheap 1 procs 1 rate 1 seed 1 goal 512\nend\n")
