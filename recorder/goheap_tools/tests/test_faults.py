"""Tests of what the tools say of what they cannot use."""

import os
import pty
import signal
import subprocess
import sys
import unittest

from goheap_tools.tests.testing import HERE, Folder, data, path_of, run


class Faults(Folder):
    """What the tools say of what they cannot use: a line each, and status 2."""

    def test_what_cannot_be_used(self):
        report_of, trace, odd = path_of("kinds.report"), path_of("small.trace"), self.put("odd", "\udcff\udcfe\0\n")
        cut = self.put("cut", data("small.trace")[:60])
        elf = self.put("elf", "\x7fELF\x02\x01")
        end = "o 0 zero\nend\n"
        for words, given, said in (
            (["record", "no such log"], "", "no such log: No such file or directory"),
            (["record", HERE], "", f"{HERE}: Is a directory"),
            (["record", "--output", "/no/such/folder"], "", "/no/such/folder: No such file or directory"),
            (["record", "--program", odd], "", f"{odd}: no 64-bit little-endian ELF program"),
            (["record", "--program", elf], "", f"{elf}: the program is cut"),
            (["record", "--output", "/dev/full"], data("small.allocfreetrace"), "/dev/full: No space left on device"),
            (["leaks", "no such report"], "", "no such report: No such file or directory"),
            (["leaks", trace], "", f"{trace}: this is a trace, and no report (goheap run --each < trace > report)"),
            (["leaks", path_of("small.allocfreetrace")], "", f"{path_of('small.allocfreetrace')}: line 1: no line of a report"),
            (["picture", trace], "", f"{trace}: this is a trace, and no report (goheap run --each < trace > report)"),
            (["leaks", "--trace", trace, "--stacks", trace], "", f"{trace}: this is a trace, and no stacks file"),
            (["leaks", odd], "", f"{odd}: line 1: no line of a report"),
            (["leaks", "-"], end[:-2], "standard input: line 2: no line of a report"),
            (["leaks", "-"], "o 0 zero\n", "standard input: the report has no end"),
            (["leaks", "-", "--stacks", report_of], end, f"{report_of}: this is a report, and no stacks file"),
            (["leaks", "-", "--stacks", odd], end, f"{odd}: line 1: no stack's number"),
            (["leaks", "--trace", report_of], "", f"{report_of}: this is a report, and no trace"),
            (["leaks", "--trace", odd], "", f"{odd}: no trace: its first line is none of `goheap 1`, `goheap 2`, `goheap 3` and `goheap 4`"),
            (["leaks", "--trace", cut], "", f"{cut}: line 4: no line of a trace"),
            (["leaks", report_of, "--trace", trace], "", f"{report_of} has 3 objects, and {trace} has 6: it is no report of this trace"),
            (["picture", "no such report"], "", "no such report: No such file or directory"),
            (["picture", odd], "", f"{odd}: line 1: no line of a report"),
            (["picture"], "j 0 0 take 2097152 1 6\nend\n", "a region has 2097152 pages at most, and no page 2097152"),
            (["picture"], "j 0 0 take 0 1 255\nend\n", "there is no span class 255"),
            (["picture"], "s 4294967295 0 1 1\nend\n", "a report has at most 1000000 cycles, not 4294967295"),
            (["picture"], "s 0 0 1 1\nend\n", "nothing is swept in cycle 0"),
            (["picture"], "j 0 0 take -1 1 6\nend\n", "standard input: line 1: no line of a report"),
            (["compare", "no such log", trace, report_of], "", "no such log: No such file or directory"),
            (["compare", odd, trace, "no such report"], "", "no such report: No such file or directory"),
        ):
            status, _, found = run(*words, given=given)
            self.assertEqual((status, found), (2, f"{words[0]}: {said}\n"))

    def test_strange_words(self):
        report_of, trace = path_of("kinds.report"), path_of("small.trace")
        for words in (["leaks"], ["leaks", report_of, "--top", "-3"], ["leaks", report_of, "--top", "x"], ["leaks", report_of, "--scale", "-1"], ["leaks", report_of, "--functions"],
                      ["leaks", "--trace", trace, "--scale", "10"], ["picture", "--title"], ["picture", report_of, report_of], ["compare"], ["compare", report_of]):  # fmt: skip
            status, out, said = run(*words)
            self.assertEqual((status, out), (2, ""), words)
            self.assertRegex(said, f"{words[0]}: error: .*\n$")

    def test_nobody_reads_on(self):
        # As `head` does: the reading end is closed before the tool writes.
        for words in (["record"], ["leaks", path_of("kinds.report")], ["picture", path_of("kinds.report")]):
            reader, writer = os.pipe()
            os.close(reader)
            ran = subprocess.run([os.path.join(HERE, words[0]), *words[1:]], input=data("small.allocfreetrace"), stdout=writer, stderr=subprocess.PIPE, text=True)
            os.close(writer)
            self.assertEqual(ran.returncode, -signal.SIGPIPE, words)
            self.assertNotIn("Traceback", ran.stderr)

    def test_no_room(self):
        for words in (["leaks", os.path.join(HERE, "..", "examples", "leak-by-stack.each")], ["picture", path_of("kinds.report")]):
            with open("/dev/full", "w") as full:
                ran = subprocess.run([os.path.join(HERE, words[0]), *words[1:]], stdout=full, stderr=subprocess.PIPE, text=True)
            self.assertEqual((ran.returncode, ran.stderr), (2, f"{words[0]}: standard output: No space left on device\n"))

    def test_closed_streams(self):
        for words, name in ((["record"], "input"), (["leaks", "-"], "input"), (["picture"], "input"), (["picture", path_of("kinds.report")], "output")):
            line = " ".join([os.path.join(HERE, words[0]), *words[1:], {"input": "<&-", "output": ">&-"}[name]])
            ran = subprocess.run(["bash", "-c", line], capture_output=True, text=True)
            self.assertEqual((ran.returncode, ran.stderr), (2, f"{words[0]}: standard {name} is closed\n"))


class Progress(unittest.TestCase):
    """What a terminal is told of a tool that takes long."""

    SLOW = "import sys, time; from goheap_tools import progress, tool; tool.end('slow', lambda _: progress.stage('at it') or time.sleep({}) or {}, [], tells={})"

    def told(self, seconds, status, tells):
        """The tool's status, and what it writes to a terminal on its errors."""
        keeper, terminal = pty.openpty()
        ran = subprocess.run([sys.executable, "-c", self.SLOW.format(seconds, status, tells)], cwd=HERE, stderr=terminal, stdout=subprocess.DEVNULL)
        os.close(terminal)
        written = b""
        try:
            while data := os.read(keeper, 1000):
                written += data
        except OSError:
            pass  # the terminal has no other end any more
        os.close(keeper)
        return ran.returncode, written.decode()

    def test_a_long_one_is_told_of_and_erased(self):
        status, written = self.told(3.2, 1, True)
        self.assertEqual(status, 1)
        self.assertTrue(written.startswith("\r\x1b[Kslow: at it, 2 s\r\x1b[K"), repr(written))
        self.assertTrue(written.endswith("s\r\x1b[K"), repr(written))

    def test_who_is_told_nothing(self):
        self.assertEqual(self.told(0, 0, True), (0, ""))
        ran = subprocess.run([sys.executable, "-c", self.SLOW.format(2.6, 0, True)], cwd=HERE, capture_output=True)
        self.assertEqual((ran.returncode, ran.stderr), (0, b""))
