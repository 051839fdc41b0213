"""What `record` makes of its words, and the sentence that helps where they name something else."""

import contextlib
import gzip
import io
import mmap
import os
import pty
import shutil
import subprocess
import unittest
import unittest.mock

from goheap_tools import tool
from goheap_tools.cli import record
from goheap_tools.inside import progress
from goheap_tools.inside.session import Asked, environment, make_way, output_for, writer_of
from goheap_tools.tests.go_tools import RECORDER
from goheap_tools.tests.recordings import HEAP, PAGE, begin, counts, recording, run, simple, small
from goheap_tools.tests.testing import Folder, data, path_of, text_of


class Words(unittest.TestCase):
    def test_where_the_command_begins(self):
        for words, options, names, command, is_told in (
            ("-- go build", "", "", "go build", True),
            ("-o x --size 1G -- ./server -o y --", "-o x --size 1G", "-o --size", "./server -o y --", True),
            ("go test ./pkg -run X", "", "", "go test ./pkg -run X", False),
            ("--every=3 -ox ./server --every 5", "--every=3 -ox", "--every -o", "./server --every 5", False),
            ("--from-mark 3 log", "--from-mark 3", "--from-mark-end", "log", False),
            ("--rate 5 --verbose", "--rate 5 --verbose", "--rate --verbose", "", False),
            ("- --program x", "", "", "- --program x", False),
        ):
            found = record.taken_apart(words.split())
            self.assertEqual((found.options, found.names, found.command, found.is_told), (options.split(), names.split(), command.split(), is_told), words)

    def test_sizes(self):
        for text, size in (("256K", 1 << 18), ("500M", 500 << 20), ("8G", 8 << 30), ("1t", 1 << 40), ("300000", 300000), ("2GiB", 2 << 30), ("2gb", 2 << 30)):
            self.assertEqual(record.size_of(text), size)
        for text in ("", "G", "-1", "1.5G", "1P", "0", "255K", "17T", "8 G"):
            with self.assertRaises(Exception):
                record.size_of(text)

    def test_what_a_program_is_told(self):
        with unittest.mock.patch.dict(os.environ, {"GOHEAP_RECORD_OLD": "1", "OTHER": "x"}):
            told = environment(Asked(1 << 20, 3, False, 7), "x y.heap")
        self.assertEqual({name: value for name, value in told.items() if name.startswith("GOHEAP_RECORD")}, {
            "GOHEAP_RECORD": os.path.abspath("x y.heap"), "GOHEAP_RECORD_SIZE": str(1 << 20), "GOHEAP_RECORD_FROM": "3", "GOHEAP_RECORD_EVERY": "7"})  # fmt: skip
        self.assertEqual(told["OTHER"], "x")
        self.assertEqual(environment(Asked(signal=True), "x")["GOHEAP_RECORD_FROM"], "signal")

    def test_names_of_recordings(self):
        children = Asked(children=True)
        for program, named, asked, output in (("/bin/server", None, Asked(), "/here/server.heap"), ("./a b", "x", Asked(), "/here/x"), ("s", "/there/x.heap", Asked(), "/there/x.heap"),
                                              ("s", None, children, "/here/s.%p.heap"), ("s", "x", children, "/here/x.%p"), ("s", "a%pb", children, "/here/a%pb")):  # fmt: skip
            self.assertEqual(output_for(program, "/here", asked, named), output)
        for named, asked in (("a%pb", Asked()), ("%p/x", children)):
            with self.assertRaises(tool.Unusable):
                output_for("s", "/here", asked, named)


class Sentences(Folder):
    """What is no program and no log, and programs that are not of Go."""

    def record(self, *words, given=None):
        return subprocess.run([os.path.join(RECORDER, "record"), *words], cwd=self.folder.name, capture_output=True, text=True, timeout=60, input=given)

    def said(self, *words):
        ran = self.record(*words)
        self.assertEqual((ran.returncode, ran.stdout), (2, ""), ran.stderr)
        self.assertEqual(len(ran.stderr.splitlines()), 1, ran.stderr)
        return ran.stderr.rstrip()

    def test_what_is_no_program_and_no_log(self):
        with open(os.path.join(self.folder.name, "x.heap"), "wb") as file:
            file.write(recording([[begin(1)]], 2))
        shutil.copy(path_of("small.trace"), os.path.join(self.folder.name, "trace"))
        self.put("report", "o 0 0xc000000000\n")
        with open(os.path.join(self.folder.name, "log.zst"), "wb") as file:
            file.write(b"(\xb5/\xfd" + bytes(20))
        self.put("stacks", "# goheap stacks 2\n")
        for name, why in (("x.heap", "x.heap is a recording: `facts x.heap` shows what is in it"),
                          ("trace", "trace is a trace, and not a program or its log: `goheap run < trace` makes its report"),
                          ("report", "report is a report, and not a program or its log: `leaks report --stacks stacks` makes a table of it"),
                          ("stacks", "stacks is a stacks file, and not a program or its log"),
                          ("log.zst", "log.zst is packed, and not by gzip or xz, by which logs are read: unpack it first"),
                          ("none", "none: No such file or directory"), ("./none", "./none: No such file or directory")):  # fmt: skip
            for front in ([], ["--"], ["-o", "out", "--"]):
                self.assertIn(f"record: {why}", self.said(*front, name))
        self.put("log", data("small.allocfreetrace"))
        self.assertIn("record: log is there, and may not be run: for a log leave the -- out", self.said("--", "log"))
        self.assertFalse(os.path.exists(os.path.join(self.folder.name, "out")))

    def test_programs_that_are_not_of_go(self):
        true = shutil.which("true")
        for words in (["true"], ["--", "true"], [true]):
            self.assertIn(f"record: {true} is no Go program, so that there is nothing of Go's heap in it", self.said(*words))

    def test_a_log_is_read_as_ever(self):
        self.put("log", data("small.allocfreetrace"))
        told = self.record("log", "--stacks", "stacks", "-o", "trace")
        self.assertEqual((told.returncode, text_of(os.path.join(self.folder.name, "trace")).splitlines()[0]), (0, "goheap 1"))
        with gzip.open(os.path.join(self.folder.name, "log.gz"), "wt") as file:
            file.write(data("small.allocfreetrace"))
        packed = self.record("log.gz", "--stacks", "stacks", "-o", "other")
        self.assertEqual((packed.returncode, text_of(os.path.join(self.folder.name, "other"))), (0, text_of(os.path.join(self.folder.name, "trace"))))
        piped = self.record("--distance", "1000", given=data("small.allocfreetrace"))
        self.assertEqual((piped.returncode, piped.stdout.splitlines()[0]), (0, "goheap 1"), piped.stderr)

    def test_help(self):
        ran = self.record("--help")
        self.assertEqual(ran.returncode, 0)
        for word in ("go build", "--size", "--from", "--every", "--keep-children", "--verbose", "--show"):
            self.assertIn(word, ran.stdout)
        self.assertIn("--keep-last", self.record("--log", "--help").stdout)
        self.assertIn("no program stands behind --", self.said("--"))
        ours, theirs = pty.openpty()
        with open(ours, "rb"), open(theirs, "rb") as terminal:
            ran = subprocess.run([os.path.join(RECORDER, "record")], stdin=terminal, capture_output=True, text=True, timeout=60)
        self.assertEqual((ran.returncode, ran.stderr), (2, "record: name a go command, a program or a log (record --help)\n"))


class Ways(Folder):
    def test_what_makes_way(self):
        path = os.path.join(self.folder.name, "x.heap")
        for text in (recording([[begin(1)]], 2), b"", bytes(100)):
            with open(path, "wb") as file:
                file.write(text)
            make_way(path)
            self.assertFalse(os.path.exists(path))
        make_way(path)
        with open(path, "wb") as file:
            file.write(b"something of the user's")
        with self.assertRaises(tool.Unusable):
            make_way(path)

    def test_who_writes_it(self):
        path = os.path.join(self.folder.name, "x.heap")
        with open(path, "wb") as file:
            file.write(recording([[begin(1)]], 2, process=os.getpid()))
        self.assertIsNone(writer_of(path))
        with open(path, "r+b") as file, mmap.mmap(file.fileno(), 0):
            self.assertEqual(writer_of(path), os.getpid())
            with self.assertRaises(tool.Unusable):
                make_way(path)
        self.assertIsNone(writer_of(path))
        self.assertIsNone(writer_of(os.path.join(self.folder.name, "none")))


class Shown(Folder):
    """How far a recording is, as it is written."""

    def lines(self, is_verbose, ticks):
        path = os.path.join(self.folder.name, "x.heap")
        one = [begin(1), simple(27, 2, 4 << 20, HEAP), run(25, 3, HEAP, 1, span_class=10), small(1, HEAP, 48, 0), small(2, HEAP + 3, 3, 0), small(3, HEAP, 0, 0),
               counts(19, 4, 5, 6, 2, 1, 5000, 1000, PAGE, 0, 0)]  # fmt: skip
        with open(path, "wb") as file:
            file.write(recording([one], 5))
        said = io.StringIO()
        with contextlib.redirect_stderr(said), unittest.mock.patch.object(progress, "VERBOSE", 0):
            shown = progress.Progress(lambda: [path, os.path.join(self.folder.name, "not yet")], is_verbose)
            for _ in range(ticks):
                shown.tick()
            shown.clear()
        return said.getvalue()

    def test_lines_without_a_terminal(self):
        self.assertEqual(self.lines(True, 2), 2 * "record: x.heap: 2 objects, 6 mark ends, 128.00kB, 3.91kB in use\n")
        self.assertEqual(self.lines(False, 2), "")


if __name__ == "__main__":
    unittest.main()
