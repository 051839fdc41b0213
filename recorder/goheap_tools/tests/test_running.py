"""Tests of `record` where it runs the program, and of files that are written whole or not at all."""

import glob
import os
import shutil
import signal
import subprocess
import sys
import time

from goheap_tools.formats.stacks import stack_file
from goheap_tools.tests.test_trust import GC, stack, start
from goheap_tools.tests.testing import HERE, Folder, data, path_of, run, text_of

RECORD = os.path.join(HERE, "record")
# A program that writes a log as Go's runtime does, and lines of its own, to both streams.
PROGRAM = """#!{python}
import os, signal, sys, time
signal.signal(signal.SIGPIPE, signal.SIG_IGN)
print("own output", sys.argv[1:], os.environ["GODEBUG"], flush=True)
sys.stderr.write({log!r})
sys.stderr.flush()
{more}
"""
FOREVER = """
number = 0
while True:
    try:
        sys.stderr.write({log!r})
        sys.stderr.flush()
    except OSError:
        time.sleep(0.01)
"""


class Running(Folder):
    LOG = start() + "a word of its own\n" + stack(16, "main.a") + GC + stack(48, "main.b") + GC

    def program(self, more="", log=LOG):
        path = self.put("program", PROGRAM.format(python=sys.executable, log=log, more=more))
        os.chmod(path, 0o755)
        return "./program"

    def record(self, *words, **environment):
        return subprocess.run([RECORD, *words], cwd=self.folder.name, capture_output=True, text=True, timeout=60, env={**os.environ, **environment})

    def files(self):
        return sorted(os.path.basename(name) for name in glob.glob(os.path.join(self.folder.name, "*")))

    def read(self, name):
        return text_of(os.path.join(self.folder.name, name))

    def test_the_program_is_run(self):
        ran = self.record("--", self.program(), "an argument", "--rate", GODEBUG="madvdontneed=1")
        self.assertEqual((ran.returncode, ran.stdout), (0, "own output ['an argument', '--rate'] madvdontneed=1,allocfreetrace=1\n"))
        said, own = ran.stderr.splitlines()[:2]
        self.assertIn("record: ./program was not built to record itself, so its log is read", said)
        self.assertEqual(own, "a word of its own")
        self.assertNotIn("of no block", ran.stderr)
        self.assertEqual(ran.stderr.splitlines()[-1], "record: written to trace and stacks; for a table: leaks --trace trace --stacks stacks")
        self.assertEqual(self.read("trace"), run("record", given=self.LOG)[1])
        self.assertEqual(self.read("trace").splitlines()[2:], ["a 0 32 s 0", "a 1 16 n 1", "gc 4194304", "m 0 1", "a 1 16 n 2", "end"])
        self.assertEqual(self.files(), ["program", "stacks", "trace"])

    def test_its_output_stays_out_of_the_trace(self):
        ran = self.record("--output", "-", "--", self.program())
        self.assertEqual(ran.stdout, run("record", given=self.LOG)[1])
        self.assertIn("own output", ran.stderr)

    def test_it_is_stopped_at_the_limit(self):
        # The log of Go's runtime goes on when nobody reads it. Stacks are a limit that is near: each of these has one of its own.
        more = FOREVER.format(log="")
        log = "".join(stack(16 * one, "main.a") for one in range(1, 30)) + GC + stack(16, "main.b") + GC
        self.put("few.py", f"import sys\nsys.path.insert(0, {HERE!r})\nfrom goheap_tools.cli import recording\nfrom goheap_tools.tests.testing import module\nrecording.MOST_OBJECTS = 20\nsys.exit(module('record').main(sys.argv[1:]))\n")
        self.program(more, log)
        began = time.monotonic()
        ran = subprocess.run([sys.executable, "few.py", "--", "./program"], cwd=self.folder.name, capture_output=True, text=True, timeout=60)
        self.assertLess(time.monotonic() - began, 40)
        self.assertEqual(ran.returncode, 0, ran.stderr)
        self.assertIn("the trace ends at the limit of objects; it is whole up to there (see --from-mark-end)\nrecord: the program was stopped there\n", ran.stderr)
        self.assertEqual(self.read("trace").count("\na "), 20)

    def test_sigterm_ends_the_program_and_the_trace_is_whole(self):
        self.program(FOREVER.format(log=stack(0x100, "main.c")))
        ran = subprocess.Popen([RECORD, "--", "./program"], cwd=self.folder.name, stdout=subprocess.PIPE, stderr=subprocess.PIPE, text=True)
        ran.stdout.readline()
        time.sleep(0.5)
        ran.send_signal(signal.SIGTERM)
        said = ran.communicate(timeout=60)[1]
        self.assertEqual(ran.returncode, 128 + signal.SIGTERM)
        self.assertIn("interrupted; the trace ends where the log was then, and is whole", said)
        self.assertTrue(self.read("trace").endswith("end\n"))
        self.assertEqual(self.files(), ["program", "stacks", "trace"])

    def test_how_it_ended(self):
        ran = self.record("--", self.program("sys.exit(3)"))
        self.assertIn("record: the program ended with status 3\n", ran.stderr)
        self.assertEqual(ran.returncode, 3)
        ran = self.record("--", self.program("os.kill(os.getpid(), signal.SIGKILL)"))
        self.assertIn("record: the program ended with signal 9\n", ran.stderr)
        self.assertEqual(ran.returncode, 128 + signal.SIGKILL)

    def test_signals_reach_the_program(self):
        self.program("signal.signal(signal.SIGUSR1, lambda *_: sys.exit(7))\nprint('ready', flush=True)\ntime.sleep(30)")
        ran = subprocess.Popen([RECORD, "--", "./program"], cwd=self.folder.name, stdout=subprocess.PIPE, stderr=subprocess.PIPE, text=True)
        while ran.stdout.readline() != "ready\n":
            pass
        ran.send_signal(signal.SIGUSR1)
        ran.communicate(timeout=60)
        self.assertEqual(ran.returncode, 7)

    def test_what_cannot_be_run(self):
        self.put("trace", "a text of the user's own\n")
        for words, why in ((["--", "./program"], "trace is there, and is not a trace: name another file"),
                           (["-o", "new", "--", "./none"], "./none: No such file or directory"),
                           (["-o", "new", "--", "true"], f"{shutil.which('true')} is no Go program, so that there is nothing of Go's heap in it: name the Go program itself"),
                           (["-o", "new", "--", "./empty"], "./empty: no allocation was found: is this a log of GODEBUG=allocfreetrace=1?")):  # fmt: skip
            os.chmod(self.put("empty", "#!/bin/sh\n"), 0o755)
            self.program()
            ran = self.record(*words)
            self.assertEqual((ran.returncode, ran.stderr.splitlines()[-1]), (2, f"record: {why}"))
            self.assertEqual(self.files(), ["empty", "program", "trace"])
        for words in (["--"], ["log", "--", "true"]):
            self.assertEqual(self.record(*words).returncode, 2)
        self.assertEqual(self.read("trace"), "a text of the user's own\n")


class Whole(Folder):
    """A file is written whole or not at all."""

    def test_what_was_there_stays(self):
        out, stacks = self.put("trace", "old trace"), self.put("stacks", "old stacks")
        # The log is of no program; the second of two files cannot be written.
        self.assertEqual(run("record", "--output", out, "--stacks", stacks, given="nothing\n")[0], 2)
        self.assertEqual(run("record", "--output", "/dev/full", "--stacks", stacks, given=data("small.allocfreetrace"))[0], 2)
        self.assertEqual(run("picture", "-", "--output", out, given="j 0 0 take 0 1 255\nend\n")[0], 2)
        self.assertEqual(run("leaks", "-", "--output", out, given="end\n")[0], 2)
        self.assertEqual((text_of(out), text_of(stacks), len(os.listdir(self.folder.name))), ("old trace", "old stacks", 2))

    def test_a_stopped_tool_leaves_nothing(self):
        for name, words in (("record", []), ("picture", ["-"]), ("leaks", ["-"]), ("explain", [path_of("small.trace"), "-"])):
            for number in (signal.SIGTERM, signal.SIGINT):
                ran = subprocess.Popen([os.path.join(HERE, name), *words, "--output", os.path.join(self.folder.name, "out")], stdin=subprocess.PIPE, stdout=subprocess.PIPE, stderr=subprocess.PIPE)
                until = time.monotonic() + 30
                while not os.listdir(self.folder.name) and time.monotonic() < until:
                    time.sleep(0.01)
                # It waits for its input. `record` takes the first signal as the log's end, in which there is nothing.
                ran.send_signal(number)
                said = ran.communicate(timeout=30)[1].decode()
                self.assertEqual(ran.returncode, 2 if name == "record" else -number, said)
                self.assertNotIn("Traceback", said)
                self.assertEqual(os.listdir(self.folder.name), [])

    def test_a_new_file_has_the_usual_mode(self):
        out = os.path.join(self.folder.name, "trace")
        before = os.umask(0o027)
        try:
            run("record", "--output", out, given=data("small.allocfreetrace"))
        finally:
            os.umask(before)
        self.assertEqual(os.stat(out).st_mode & 0o777, 0o640)
        os.chmod(out, 0o600)
        run("record", "--output", out, given=data("small.allocfreetrace"))
        self.assertEqual(os.stat(out).st_mode & 0o777, 0o600)

    def test_a_link_is_followed(self):
        out = self.put("trace", "old")
        link = os.path.join(self.folder.name, "link")
        os.symlink("trace", link)
        run("record", "--output", link, "--stacks", os.path.join(self.folder.name, "stacks"), given=data("small.allocfreetrace"))
        self.assertTrue(os.path.islink(link))
        self.assertEqual(text_of(out).count("\na "), int(stack_file(os.path.join(self.folder.name, "stacks")).header["objects"]))
