"""The words that the launcher answers by itself."""
import os
import shutil
import subprocess

from stage import ROOT, Stage, put, read

WORDS = ("run", "watch", "check", "heap", "demo", "gen", "classes", "--build", "--version", "help")


class Words(Stage):
    def git(self, *words: str) -> str:
        who = ("-c", "user.name=a", "-c", "user.email=a@b")
        return subprocess.run(["git", "-C", self.top, *who, *words], capture_output=True, text=True, check=True).stdout.strip()

    def make_repository(self) -> str:
        """Makes the checkout a repository with one commit, and returns that."""
        put(f"{self.top}/.gitignore", "out/\n__pycache__/\n")
        self.git("init", "-q")
        self.git("add", ".")
        self.git("commit", "-qm", "one")
        return self.git("rev-parse", "HEAD")

    def test_help_has_one_word_a_line_with_a_phrase(self):
        for words in (("--help",), ("-h",), ("help",)):
            status, out, errors = self.call(*words)
            self.assertEqual((status, errors), (0, ""))
            for word in WORDS:
                self.assertRegex(out, rf"(?m)^  {word} +[a-z][^\n]+$")
        self.assertEqual(self.noted(), [])

    def test_no_words_are_a_wrong_call_with_the_usage(self):
        status, out, errors = self.call()
        self.assertEqual((status, out), (2, ""))
        self.assertEqual(errors, self.call("help")[1])
        self.assertTrue(errors.startswith("usage: goheap "))

    def test_help_says_of_a_word_what_it_takes_and_how_it_ends(self):
        for word in WORDS:
            status, out, errors = self.call("help", word)
            self.assertEqual((status, errors), (0, ""))
            self.assertIn(f"\nusage: goheap {word}", out)
            for part in ("input:", "output:", "statuses:", "example:"):
                self.assertIn(f"\n{part}\n", out)
        self.assertRegex(self.call("help", "check")[1], r"\n  --pieces=N +\S.*\n")
        self.assertRegex(self.call("help", "check")[1], r"\n  4 +the report is refused\n")

    def test_help_of_other_words_is_a_wrong_call(self):
        for words in (("help", "walk"), ("--help", "run", "watch"), ("--version", "run")):
            status, out, errors = self.call(*words)
            self.assertEqual((status, out), (2, ""))
            self.assertIn("usage: goheap ", errors)

    def test_the_words_are_those_of_the_program(self):
        usage = next(line for line in read(f"{ROOT}/docs/report-format.md").splitlines() if "usage: goheap run" in line)
        named = {it.split()[0] for it in usage.split("`")[1].removeprefix("usage: goheap ").split(" / ")}
        self.assertEqual(named, {word for word in WORDS if word not in ("--build", "--version", "help")})

    def test_a_program_that_is_built_is_not_asked(self):
        self.put_program()
        self.assertEqual(self.call("help", "run")[0], 0)
        self.assertIn("usage: goheap ", self.call("--help")[1])

    def test_the_version_tells_commit_toolchain_and_that_nothing_is_proved_yet(self):
        commit = self.make_repository()
        put(f"{self.room}/kit/KIT-ID", "a-kit logic 2\n")
        put(f"{self.room}/kit/bin/rt", "#!/bin/sh\nexit 1\n", True)
        os.remove(f"{self.room}/bin/rt")
        os.symlink(f"{self.room}/kit/bin/rt", f"{self.room}/bin/rt")
        status, out, errors = self.call("--version")
        self.assertEqual((status, errors), (0, ""))
        first, *rest = out.splitlines()
        self.assertEqual(first, f"goheap 0.0.0-{commit[:12]}")
        self.assertEqual(rest[:2], [f"commit: {commit}", "toolchain: a-kit logic 2"])
        self.assertIn("without proofs", rest[2])
        self.put_program()
        self.assertEqual(self.call("--version")[1].splitlines()[3], "what runs: the proved program")

    def test_a_toolchain_with_no_file_of_its_name_is_asked_for_it(self):
        self.assertIn("\ntoolchain: played-kit logic 1\n", self.call("--version")[1])

    def test_the_version_is_that_of_the_tag(self):
        self.make_repository()
        self.git("tag", "v1.4.0")
        self.assertTrue(self.call("--version")[1].startswith("goheap 1.4.0\n"))
        self.git("commit", "-qm", "two", "--allow-empty")
        self.assertTrue(self.call("--version")[1].startswith(f"goheap 1.4.0-1-{self.git('rev-parse', 'HEAD')[:12]}\n"))

    def test_the_version_of_what_is_no_repository_is_not_known(self):
        environment = {"GIT_CEILING_DIRECTORIES": self.room}
        self.assertTrue(self.call("--version", **environment)[1].startswith("goheap unknown\ncommit: unknown\n"))

    def bare(self, *names: str) -> str:
        """A path with these commands alone."""
        folder = f"{self.room}/bare-{len(names)}"
        os.makedirs(folder)
        for name in names:
            os.symlink(shutil.which(name, path=self.environment["PATH"]), f"{folder}/{name}")
        return folder

    def test_the_words_stand_at_once_since_no_command_is_called(self):
        bare = self.bare("bash")
        for words in (("help",), ("--help",), *(("help", word) for word in WORDS)):
            self.assertEqual(self.call(*words, PATH=bare), self.call(*words))
        self.assertEqual(self.call(PATH=bare), self.call())

    def test_the_version_stands_at_once_since_only_quick_commands_are_called(self):
        self.make_repository()
        put(f"{self.room}/kit/KIT-ID", "a-kit logic 2\n")
        shutil.move(f"{self.room}/bin/rt", put(f"{self.room}/kit/bin/rt", ""))
        os.symlink(f"{self.room}/kit/bin/rt", f"{self.room}/bin/rt")
        self.put_program()
        bare = self.bare("bash", "git", "awk", "find", "readlink", "rt")
        self.assertEqual(self.call("--version", PATH=bare), self.call("--version"))
        self.assertIn("the proved program", self.call("--version", PATH=bare)[1])
        self.assertEqual(self.noted(), [])

    def test_a_link_to_the_launcher_finds_its_folder(self):
        os.symlink(f"{self.top}/goheap", f"{self.room}/bin/goheap")
        ran = subprocess.run(["goheap", "help"], env=self.environment, cwd=self.room, capture_output=True, text=True, check=False)
        self.assertEqual((ran.returncode, ran.stderr), (0, ""))
