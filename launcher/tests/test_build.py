"""What `goheap --build` does: it proves the crates of the program alone, tells how far it is, and leaves the program."""
import glob
import os
import re
import signal
import subprocess
import sys
import time

from stage import Stage, read


class Build(Stage):
    def tree(self) -> str:
        """The copy in which crates are proved."""
        (name,) = os.listdir(self.caches)
        return f"{self.caches}/{name}"

    def test_it_proves_and_leaves_the_program(self):
        status, out, errors = self.call("--build")
        self.assertEqual((status, out), (0, ""))
        self.assertRegex(errors, r"goheap: proved and built, in [0-9.]+ minutes\n$")
        self.assertEqual([it.split()[:3] for it in self.noted()], [["crates", "all", "check"], ["goheap", "run", "--"]])
        self.assertEqual(self.call("run"), (5, "the program: run\n", ""))
        self.assertEqual(self.call("--build"), (0, "", ""))

    def test_no_word_of_the_toolchain_comes_through(self):
        for line in self.call("--build")[2].splitlines():
            self.assertTrue(line.startswith("goheap: "), line)

    def test_words_behind_it_are_refused_with_its_usage(self):
        for built in (False, True):
            if built:
                self.put_program()
            for words in (("--help",), ("run",), ("--build",)):
                status, out, errors = self.call("--build", *words)
                self.assertEqual((status, out), (2, ""))
                self.assertIn("\nusage: goheap --build\n", errors)
        self.assertEqual(self.noted(), [])

    def test_what_is_edited_meanwhile_is_newer_than_the_program(self):
        self.call("--build")
        self.assertLess(os.stat(self.program).st_mtime, time.time())
        os.utime(self.source)
        self.assertEqual(self.call("run")[0], 3)

    def test_it_has_the_crates_of_the_program_alone(self):
        self.call("--build")
        named = {line.split(":")[0].split()[0] for line in read(f"{self.tree()}/crates.txt").splitlines()}
        self.assertIn("heap_run", named)
        self.assertNotIn("heap_run_tests", named)
        self.assertEqual(named, set(os.listdir(f"{self.tree()}/crates")))

    def test_a_failed_proof_ends_it_and_leaves_no_program(self):
        status, _, errors = self.call("--build", FAILS="edge_io")
        self.assertEqual(status, 1)
        self.assertIn("error: not proved", errors)
        self.assertFalse(os.path.exists(self.program))

    def test_a_terminal_shows_crates_and_minutes(self):
        text = self.shown("--build", wanted=" left", SLOW="20")
        self.assertRegex(text, r"proved 0 of \d+ crates, about \d+ minutes left")

    def test_how_far_it_is_stands_before_anything_is_waited_for(self):
        script = "import build, threading; ended = threading.Event(); ended.set(); build.show(build.Work(['goheap'], 1), ended)"
        ran = subprocess.run([sys.executable, "-c", script], cwd=f"{self.top}/launcher", capture_output=True, text=True, check=True)
        self.assertRegex(ran.stderr, r"^goheap: proved 0 of 1 crates, about \d+ minutes left\n$")

    def test_without_a_terminal_the_first_line_stands_at_once_too(self):
        run = self.begin("--build", SLOW="20")
        line = run.stderr.readline()
        os.killpg(run.pid, signal.SIGTERM)
        self.assertRegex(line, r"^goheap: proved 0 of \d+ crates, about \d+ minutes left\n$")

    def test_an_interrupt_ends_it_and_what_was_proved_stays(self):
        run = self.begin("--build", SLOW="0.3")
        lines = []
        until = time.monotonic() + 30
        while len(self.proved()) < 2 and time.monotonic() < until:
            time.sleep(0.05)
        os.killpg(run.pid, signal.SIGINT)
        lines = run.communicate(timeout=20)[1].splitlines()
        self.assertEqual(run.returncode, 130)
        self.assertEqual(lines[-1], "goheap: interrupted; what was proved is kept, and the next build goes on there")
        self.assertFalse(os.path.exists(f"/proc/{read(self.notes + '.pid').strip()}"))
        kept = self.proved()
        self.assertGreaterEqual(len(kept), 2)
        self.assertEqual(self.call("--build")[0], 0)
        self.assertLessEqual(kept, self.proved())

    def proved(self) -> set[str]:
        """The crates of which the toolchain that is played has kept something."""
        return {path.split("/")[-2] for path in glob.glob(f"{self.caches}/*/crates/*/out")}

    def test_a_second_build_says_that_it_waits(self):
        first = self.begin("--build", SLOW="20")
        first.stderr.readline()
        second = self.begin("--build", SLOW="20")
        said = second.stderr.readline()
        for run in (first, second):
            os.killpg(run.pid, signal.SIGINT)
            run.wait(20)
        self.assertEqual(said, "goheap: another build of this checkout is at work; waiting for it\n")

    def test_the_minutes_of_the_proofs_are_those_of_the_table(self):
        said = self.call("classes")[2]
        self.assertRegex(said, r"about \d+ minutes")
        self.assertGreater(int(re.search(r"about (\d+) minutes", said)[1]), 1)
