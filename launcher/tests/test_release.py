"""`./dev release`, and what it makes. The proved program is not built for these tests: a script stands in its place, and the gate is played."""
import glob
import os
import shutil
import subprocess
import sys
import unittest

from stage import ROOT, Stage, put, read

# All that the launcher calls by name in a release.
CALLED = ("bash", "cat", "chmod", "mv", "readlink", "rm")
GO = shutil.which("go") or next(iter(sorted(glob.glob("/usr/lib/go-1.*/bin/go"))), None)
# Plays the gate.
GATE = """#!/bin/sh
echo 'much is said'
[ -z "${FAILS-}" ] || { echo '4 passed, 1 failed'; exit 1; }
echo '5 passed, 0 failed'
"""
# A Go program that keeps what it allocates.
LEAK = """package main

import "runtime"

var kept [][]byte

func main() {
	for i := 0; i < 100; i++ {
		kept = append(kept, make([]byte, 1000))
	}
	runtime.GC()
}
"""


class Release(Stage):
    def setUp(self):
        super().setUp()
        for name in ("recorder", "examples", "docs"):
            shutil.copytree(f"{ROOT}/{name}", f"{self.top}/{name}", dirs_exist_ok=True, ignore=shutil.ignore_patterns("__pycache__"))
        for name in ("dev", "README.md", "CHANGELOG.md", ".gitignore"):
            shutil.copy2(f"{ROOT}/{name}", f"{self.top}/{name}")
        put(f"{self.top}/.ci/run", GATE, True)
        self.git("init", "-q")
        self.git("add", ".")
        self.git("commit", "-qm", "one")
        self.git("tag", "v2.3.0")
        self.put_program()

    def git(self, *words: str) -> str:
        who = ("-c", "user.name=a", "-c", "user.email=a@b")
        return subprocess.run(["git", "-C", self.top, *who, *words], capture_output=True, text=True, check=True).stdout.strip()

    def dev(self, *words: str, **more: str) -> tuple[int, str, str]:
        ran = subprocess.run([f"{self.top}/dev", *words], env={**self.environment, **more}, capture_output=True, text=True, check=False)
        return ran.returncode, ran.stdout, ran.stderr

    def released(self) -> str:
        """The path of a release of the tree as it stands."""
        self.assertEqual(self.dev("test")[0], 0)
        status, out, errors = self.dev("release")
        self.assertEqual((status, out, errors), (0, "out/goheap-2.3.0-linux-x86_64.tar.gz\n", ""))
        return f"{self.top}/{out.strip()}"

    def unpacked(self) -> str:
        os.makedirs(f"{self.room}/elsewhere")
        subprocess.run(["tar", "-xzf", self.released(), "-C", f"{self.room}/elsewhere"], check=True)
        return f"{self.room}/elsewhere/goheap-2.3.0-linux-x86_64"

    def bare(self) -> dict[str, str]:
        """An environment that has of commands what the launcher calls, a Python and a Go, and no toolchain."""
        folder = f"{self.room}/bare"
        os.makedirs(folder)
        for name in CALLED:
            os.symlink(shutil.which(name), f"{folder}/{name}")
        os.symlink(sys.executable, f"{folder}/python3")
        return {"PATH": folder, "HOME": self.room}

    def test_a_tree_that_is_not_built_is_refused(self):
        self.dev("test")
        os.remove(self.program)
        self.assertEqual(self.dev("release"), (1, "", "dev release: the program is not built, or older than a source: ./goheap --build\n"))
        self.put_program(60)
        self.assertEqual(self.dev("release")[:2], (1, ""))

    def test_a_tree_with_changes_is_refused(self):
        self.dev("test")
        put(f"{self.top}/new", "")
        self.assertEqual(self.dev("release"), (1, "", "dev release: there are changes that are not committed\n"))

    def test_a_tree_that_did_not_pass_the_gate_is_refused(self):
        self.assertEqual(self.dev("release"), (1, "", "dev release: no gate was run here: ./dev test\n"))
        self.assertEqual(self.dev("test", FAILS="1")[0], 1)
        self.assertEqual(self.dev("release"), (1, "", "dev release: the gate did not pass: its last line is '4 passed, 1 failed'\n"))
        self.dev("test")
        self.git("commit", "-qm", "two", "--allow-empty")
        status, _, errors = self.dev("release")
        self.assertEqual(status, 1)
        self.assertIn("the gate was run on something else", errors)

    def test_a_gate_of_files_that_were_changed_does_not_count(self):
        put(f"{self.top}/new", "")
        self.dev("test")
        os.remove(f"{self.top}/new")
        status, _, errors = self.dev("release")
        self.assertEqual(status, 1)
        self.assertIn("changes: 1", errors)

    def test_it_says_what_it_is_of_and_its_checksums_are_right(self):
        folder = self.unpacked()
        lines = read(f"{folder}/RELEASE").splitlines()
        wanted = ["# version: 2.3.0", f"# commit: {self.git('rev-parse', 'HEAD')}", "# toolchain: played-kit logic 1", "# gate: 5 passed, 0 failed"]
        self.assertEqual(lines[:4], wanted)
        subprocess.run(["sha256sum", "-c", "--quiet", "RELEASE"], cwd=folder, check=True)
        inside = {os.path.relpath(f"{at}/{name}", folder) for at, _, names in os.walk(folder) for name in names}
        self.assertEqual({line.split("  ")[1] for line in lines[4:]}, inside - {"RELEASE"})
        self.assertEqual(read(f"{folder}/VERSION"), "2.3.0\n")
        for name in ("README.md", "CHANGELOG.md", "libexec/goheap", "recorder/leaks", "share/man/man1/goheap.1", "share/zsh/site-functions/_goheap"):
            self.assertIn(name, inside)
        self.assertEqual([name for name in inside if "test_" in name or name.startswith("crates")], [])

    def test_it_has_the_same_bytes_each_time(self):
        with open(self.released(), "rb") as file:
            first = file.read()
        with open(self.released(), "rb") as file:
            self.assertEqual(file.read(), first)

    def test_unpacked_all_words_answer_without_the_toolchain(self):
        folder, bare = self.unpacked(), self.bare()

        def call(*words: str, given: str = "") -> tuple[int, str, str]:
            ran = subprocess.run([f"{folder}/goheap", *words], input=given, env=bare, capture_output=True, text=True, check=False)
            return ran.returncode, ran.stdout, ran.stderr

        trace, report = f"{folder}/examples/leak.trace", f"{folder}/examples/leak.report"
        self.assertEqual(call("run", trace), (0, f"words run\n{read(trace)}", ""))
        self.assertEqual(call("run", given="text"), (0, "words run\ntext", ""))
        self.assertEqual(call("check", trace, report), (0, f"words check\n{read(trace)}{read(report)}", ""))
        self.assertEqual(call("run", "-o", f"{self.room}/answer", trace), (0, "", ""))
        self.assertEqual(read(f"{self.room}/answer"), f"words run\n{read(trace)}")
        self.assertEqual(call("help", "run")[0], 0)
        version = f"goheap 2.3.0\ncommit: {self.git('rev-parse', 'HEAD')}\ntoolchain: played-kit logic 1\nwhat runs: the proved program\n"
        self.assertEqual(call("--version"), (0, version, ""))
        status, out, errors = call("--build")
        self.assertEqual((status, out), (0, ""))
        self.assertIn("this is a release", errors)

    def test_unpacked_the_tools_read_the_examples(self):
        folder, bare = self.unpacked(), self.bare()
        trace, report = f"{folder}/examples/leak.trace", f"{folder}/examples/leak.report"
        for words in (["leaks", f"{folder}/examples/leak-by-stack.report"], ["pins", trace, report], ["picture", report], ["explain", trace, report]):
            ran = subprocess.run([f"{folder}/recorder/{words[0]}", *words[1:]], env=bare, capture_output=True, text=True, check=False)
            self.assertEqual((ran.returncode, ran.stderr), (0, ""), words)
            self.assertNotEqual(ran.stdout, "")

    @unittest.skipUnless(GO, "there is no Go here")
    def test_unpacked_a_go_program_is_recorded(self):
        folder, bare = self.unpacked(), self.bare()
        os.symlink(os.path.realpath(GO), f"{bare['PATH']}/go")
        how = {**bare, "GOTOOLCHAIN": "local", "GOPROXY": "off", "CGO_ENABLED": "0", "GOCACHE": os.environ.get("GOCACHE", f"{self.room}/cache")}
        put(f"{self.room}/program/leak.go", LEAK)
        subprocess.run(["go", "build", "-o", "leak", "leak.go"], env=how, cwd=f"{self.room}/program", check=True)
        said = subprocess.run(["go", "version"], env=how, capture_output=True, text=True, check=True).stdout
        if not any(f"go1.{minor}" in said for minor in (19, 20, 21)):
            self.skipTest(f"the recorder reads the logs of Go 1.19 to 1.21: {said}")
        ran = subprocess.run([f"{folder}/recorder/record", "--", "./leak"], env=how, cwd=f"{self.room}/program", capture_output=True, text=True, check=False)
        self.assertEqual(ran.returncode, 0, ran.stderr)
        ran = subprocess.run([f"{folder}/goheap", "run", "trace"], env=how, cwd=f"{self.room}/program", capture_output=True, text=True, check=False)
        self.assertEqual((ran.returncode, ran.stderr), (0, ""))
        self.assertEqual(ran.stdout.removeprefix("words run\n"), read(f"{self.room}/program/trace"))
        self.assertGreater(ran.stdout.count("\na "), 100)
