"""What the launcher does where the program is missing or older than a source: it says so, refuses what cannot end, and has the toolchain compile."""
import os
import re
import shutil
import signal
import subprocess
import time

from stage import ROOT, Stage, put, read

HEAD = "goheap 1\nheap 1 procs 1 rate 0 seed 1 goal 512\n"


class Unproved(Stage):
    def commands(self) -> list[str]:
        """The calls of the toolchain, without its limit of time."""
        return [line.replace("--seconds 600 ", "") for line in self.noted()]

    def is_alive(self) -> bool:
        return os.path.exists(f"/proc/{read(self.notes + '.pid').strip()}")

    def wait_for(self, name: str) -> None:
        until = time.monotonic() + 20
        while not os.path.exists(name) and time.monotonic() < until:
            time.sleep(0.05)

    def test_it_says_first_what_will_happen(self):
        status, out, errors = self.call("run", given=HEAD + "end\n")
        self.assertEqual((status, out), (3, "an answer\n"))
        first, second, third, last = errors.splitlines()
        self.assertRegex(first, r"^goheap: not built yet: compiling without proofs, about \d+ s \(on two processors\), .* and at each call anew$")
        self.assertEqual(second, "goheap: such an answer has at most 1 MiB, and its run 600 s")
        self.assertRegex(third, r"^goheap: \./goheap --build proves and builds the program once, from nothing in about \d+ minutes on \d+ processors$")
        self.assertEqual(last, "goheap: a word of the program")
        self.assertEqual(self.commands(), ["goheap try -- run"])
        self.assertEqual(read(self.notes + ".input"), HEAD + "end\n")

    def test_the_next_call_tells_the_time_of_this_one(self):
        self.call("classes")
        put(f"{self.caches}/{os.listdir(self.caches)[0]}/compiling", "77")
        self.assertIn("about 77 s (as the last time)", self.call("classes")[2])

    def test_no_word_of_the_toolchain_comes_through(self):
        for ends in ("ended", "hang", "refused"):
            for line in self.call("classes", ENDS=ends)[2].splitlines():
                self.assertTrue(line.startswith("goheap: "), line)

    def test_files_and_the_target_are_those_of_the_program(self):
        target = f"{self.room}/answer"
        self.assertEqual(self.call("check", self.example("leak.trace"), self.example("leak.report"), "-o", target)[0], 3)
        self.assertEqual(read(self.notes + ".input"), read(self.example("leak.trace")) + read(self.example("leak.report")))
        self.assertFalse(os.path.exists(target))

    def test_a_program_that_is_older_than_a_source_is_not_run(self):
        self.put_program(60)
        self.assertEqual(self.call("classes")[:2], (3, "an answer\n"))

    def test_words_of_no_command_are_refused_without_compiling(self):
        usage = read(f"{ROOT}/docs/report-format.md").split("The usage is `")[1].split("`")[0]
        rows = ("walk", "run --help", "run --each --each", "run --background=5", "check --pieces=65", "gen 1", "gen 01 1", "gen 1 0", "demo 1 1000001",
                "demo 18446744073709551616 1", "watch", "watch 5", "heap x y z", "classes x")  # fmt: skip
        for words in rows:
            self.assertEqual(self.call(*words.split()), (2, "", usage + "\n"), words)
        self.assertEqual(self.noted(), [])

    def test_words_of_a_command_are_not_refused(self):
        rows = ("run", "run --each --background 0", "run --background=4 --each", "check", "check --pieces=64", "heap", "classes", "gen 0 1",
                "gen 18446744073709551615 70000", "demo 1 1000000", "watch 4")  # fmt: skip
        for words in rows:
            self.assertEqual(self.call(*words.split())[:2], (3, "an answer\n"), words)
        self.assertEqual(self.commands(), [f"goheap try -- {words}" for words in rows])

    def test_an_answer_that_is_too_long_is_refused_at_once_with_the_way_out(self):
        # the line `o 0 0xc000000000` has 16 bytes beside the number's digits; 1,048,576 bytes hold 50,461 such lines
        long = put(f"{self.room}/long", HEAD + "a 0 24 s 1\n" * 50500 + "end\n")
        for words in (("gen", "1", "100000"), ("run", long), ("watch", "1", long)):
            status, out, errors = self.call(*words)
            self.assertEqual((status, out), (1, ""))
            self.assertRegex(errors, r"^goheap: the answer has more than 1 MiB, .*; \./goheap --build makes the program, which can\n$")
        self.assertEqual(self.noted(), [])
        self.assertEqual(self.call("check", long)[0], 3)
        self.assertEqual(self.call("run", given=HEAD + "a 0 24 s 1\n" * 50400 + "end\n")[0], 3)
        # `o 0 zero` is shorter
        self.assertEqual(self.call("run", given=HEAD + "a 0 0 s 1\n" * 50500 + "end\n")[0], 3)

    def test_an_input_that_the_toolchain_does_not_take_whole_is_refused(self):
        large = f"{self.room}/large"
        with open(large, "wb") as file:
            file.truncate((64 << 20) + 1)
        status, out, errors = self.call("check", large)
        self.assertEqual((status, out), (1, ""))
        self.assertIn("more than 64 MiB", errors)
        self.assertEqual(self.noted(), [])

    def test_what_does_not_end_is_told_with_the_way_out(self):
        status, out, errors = self.call("classes", ENDS="hang")
        self.assertEqual((status, out), (1, ""))
        self.assertRegex(errors.splitlines()[-1], r"^goheap: no answer within 600 s and 1 MiB.*\./goheap --build")

    def test_what_the_toolchain_said_of_a_failure_is_kept(self):
        status, _, errors = self.call("classes", ENDS="refused")
        self.assertEqual(status, 1)
        said = errors.splitlines()[-1]
        self.assertTrue(said.startswith("goheap: the sources do not compile; "), said)
        self.assertIn("cannot find value", read(said.split("; ")[1].split(" has ")[0]))

    def test_a_terminal_shows_the_seconds(self):
        text = self.shown("classes", wanted=": 2 of", SLOW="20")
        for turned in "|/-\\":
            self.assertRegex(text, rf"\rgoheap: {re.escape(turned)} compiling without proofs: [0-9] of about 80 s\x1b")

    def test_an_interrupt_ends_the_toolchain_too(self):
        for words in (("classes",), ("classes", "-o", f"{self.room}/answer")):
            run = self.begin(*words, SLOW="20")
            self.wait_for(self.notes + ".pid")
            os.killpg(run.pid, signal.SIGINT)
            self.assertEqual(run.wait(10), 130)
            self.assertFalse(self.is_alive())
            os.remove(self.notes + ".pid")
        self.assertEqual([name for name in os.listdir(self.room) if name.startswith("answer")], [])

    def test_of_a_closed_pipe_the_status_tells_alone(self):
        with open(f"{self.room}/errors", "w", encoding="utf-8") as errors:
            how = {"env": {**self.environment, "ANSWERS": "1000000"}, "stdin": subprocess.DEVNULL, "stdout": subprocess.PIPE, "stderr": errors}
            run = subprocess.Popen([f"{self.top}/goheap", "classes"], **how)
            run.stdout.close()
            self.assertEqual(run.wait(), 6)
        self.assertNotIn("fault", read(f"{self.room}/errors"))

    def test_a_read_that_fails_is_told_as_the_program_tells_it(self):
        folder = os.open(self.room, os.O_RDONLY)
        ran = subprocess.run([f"{self.top}/goheap", "run"], env=self.environment, stdin=folder, capture_output=True, text=True, check=False)
        os.close(folder)
        self.assertEqual((ran.returncode, ran.stdout, ran.stderr), (5, "", "goheap: read fault\n"))
        closed = f'"{self.top}/goheap" run <&-; "{self.top}/goheap" demo 1 1 <&-'
        ran = subprocess.run(closed, shell=True, env=self.environment, capture_output=True, text=True, check=False)
        self.assertEqual((ran.returncode, ran.stdout, ran.stderr.splitlines()[0]), (3, "an answer\n", "goheap: read fault"))

    def test_without_the_toolchain_it_says_so(self):
        bare = os.path.join(self.room, "bare")
        os.makedirs(bare)
        for name in ("bash", "awk", "find"):
            os.symlink(shutil.which(name), os.path.join(bare, name))
        status, out, errors = self.call("run", PATH=bare)
        self.assertEqual((status, out), (127, ""))
        self.assertIn("is not on the path", errors)
