"""Commands of Go that get the overlay, and programs whose status and signals are handed on."""

import os
import signal
import subprocess
import sys
import unittest
import unittest.mock

from goheap_tools import tool
from goheap_tools.inside.gocommand import GoCommand, is_go, quoted
from goheap_tools.inside.process import status_of, told_status
from goheap_tools.tests.go_tools import GoTest, environment, toolchains

RECORDER = os.path.dirname(os.path.dirname(os.path.dirname(os.path.abspath(__file__))))


class Commands(GoTest):
    def command(self, *words):
        go = toolchains()[max(toolchains())]
        return GoCommand([go, *words])

    def changed(self, *words):
        return self.command(*words).changed("/a cache/overlay.json", ["python3", "/a folder/record", "--"])[1:]

    def test_what_makes_programs(self):
        for words, wanted in (("go build", True), ("go1.21 test ./x", True), ("/usr/lib/go-1.19/bin/go run .", True), ("go install", True), ("go", False), ("go vet", False),
                              ("gofmt build", False), ("./go-server run", False)):  # fmt: skip
            self.assertEqual(is_go(words.split()), wanted, words)

    def test_the_overlay_is_added_and_the_rest_stays(self):
        overlay = "-overlay=/a cache/overlay.json"
        runner = "-exec=python3 '/a folder/record' --"
        for words, wanted in (
            (["build", "-o", "x y", "./cmd/server"], ["build", overlay, "-o", "x y", "./cmd/server"]),
            (["build", "-C", ".", "-v"], ["build", "-C", ".", overlay, "-v"]),
            (["install", "-C=.", "./..."], ["install", "-C=.", overlay, "./..."]),
            (["run", "-tags", "a", ".", "-race", "-overlay"], ["run", overlay, runner, "-tags", "a", ".", "-race", "-overlay"]),
            (["test", "./pkg", "-run", "X"], ["test", overlay, "-vet=off", "-count=1", runner, "./pkg", "-run", "X"]),
            (["test", "./pkg", "-count", "2", "-args", "-race"], ["test", overlay, "-vet=off", runner, "./pkg", "-count", "2", "-args", "-race"]),
            (["test", "-c", "./pkg"], ["test", overlay, "-vet=off", "-c", "./pkg"]),
            (["test", "-vet=off", "./pkg", "-test.count=1"], ["test", overlay, "-vet=off", runner, "-vet=off", "./pkg", "-test.count=1"]),
        ):
            self.assertEqual(self.changed(*words), wanted)

    def test_what_cannot_be_recorded_is_refused_with_a_reason(self):
        for words, why in (
            (["build", "-race", "."], "-race: the race detector changes what a program allocates"),
            (["test", "./...", "-race=true"], "-race: the race detector"),
            (["build", "-msan"], "-msan: the memory sanitizer"),
            (["build", "-overlay", "x"], "has an -overlay of its own"),
            (["test", "-vet=all"], "run `go vet` by itself"),
            (["run", "-exec", "qemu", "."], "-exec: the program is begun by the recorder"),
            (["build", "-compiler=gccgo"], "-compiler gccgo"),
        ):
            with self.assertRaises(tool.Unusable, msg=words) as refused:
                self.command(*words)
            self.assertIn(why, str(refused.exception))
        self.assertTrue(self.command("build", "-race=false", ".").changed("x", None))

    def test_what_the_environment_says_counts(self):
        for name, value, why in (("GOFLAGS", "-race", "-race: the race detector"), ("GOOS", "windows", "windows/amd64 cannot be recorded"), ("GOARCH", "arm64", "linux/arm64 cannot be recorded")):
            with unittest.mock.patch.dict(os.environ, {name: value}), self.assertRaises(tool.Unusable) as refused:
                self.command("build")
            self.assertIn(why, str(refused.exception))

    def test_the_go_command_takes_names_apart_as_they_are_put_together(self):
        # `go run -exec` prints what it would run with -n, each word as it has it.
        go = toolchains()[max(toolchains())]
        words = ["/bin/echo", "a b", "it's", 'a "b"', "plain"]
        folder = os.path.join(os.path.dirname(os.path.abspath(__file__)), "programs", "names")
        ran = subprocess.run([go, "run", "-n", f"-exec={quoted(words)}", "."], cwd=folder, env=environment(), capture_output=True, text=True, timeout=60)
        self.assertIn(" ".join(words), ran.stderr.splitlines()[-1])
        with self.assertRaises(tool.Unusable):
            quoted(["both ' and \""])


class Statuses(unittest.TestCase):
    """A program's status and its signals, as `Running` hands them on."""

    RUN = "import sys; from goheap_tools.inside.process import Running; sys.exit(Running(sys.argv[1:], dict(__import__('os').environ)).wait())"

    def start(self, script):
        return subprocess.Popen([sys.executable, "-c", self.RUN, sys.executable, "-c", script], cwd=RECORDER, stdout=subprocess.PIPE, text=True)

    def test_statuses(self):
        for script, status in (("", 0), ("raise SystemExit(3)", 3), ("import os; os.kill(os.getpid(), 9)", 137), ("import os; os.abort()", 134)):
            with self.start(script) as ran:
                self.assertEqual(ran.wait(timeout=30), status)
        self.assertEqual((status_of(-15), told_status(143), told_status(3), told_status(200)), (143, "signal SIGTERM (status 143)", "status 3", "status 200"))

    def test_signals_reach_the_program(self):
        for number in (signal.SIGTERM, signal.SIGINT, signal.SIGHUP, signal.SIGUSR1, signal.SIGUSR2, signal.SIGQUIT):
            script = f"import signal, time; signal.signal({int(number)}, lambda *_: (print('came', flush=True), exit(7))); print('ready', flush=True); time.sleep(30)"
            with self.start(script) as ran:
                self.assertEqual(ran.stdout.readline(), "ready\n")
                ran.send_signal(number)
                self.assertEqual((ran.stdout.read(), ran.wait(timeout=30)), ("came\n", 7))

    def test_a_program_that_a_signal_ends(self):
        with self.start("import time; print('ready', flush=True); time.sleep(30)") as ran:
            ran.stdout.readline()
            ran.send_signal(signal.SIGTERM)
            self.assertEqual(ran.wait(timeout=30), 143)

    def test_no_signal_is_lost_and_none_is_blocked_in_the_program(self):
        with self.start("import signal; print(len(signal.pthread_sigmask(signal.SIG_BLOCK, [])))") as ran:
            self.assertEqual(ran.stdout.read(), "0\n")


if __name__ == "__main__":
    unittest.main()
