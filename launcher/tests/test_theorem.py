"""The page of the theorem: it quotes the definitions of the tree, and is refused where one changed, moved or is not quoted."""
import os
import shutil
import subprocess
import tempfile
import unittest

from stage import ROOT, put, read

RUNS = "crates/page_alloc/specs/FreeRuns.antt"


class Theorem(unittest.TestCase):
    def setUp(self) -> None:
        self.top = tempfile.mkdtemp()
        self.addCleanup(shutil.rmtree, self.top)
        shutil.copytree(f"{ROOT}/docs", f"{self.top}/docs", ignore=shutil.ignore_patterns("__pycache__"))
        shutil.copytree(f"{ROOT}/crates", f"{self.top}/crates", ignore=shutil.ignore_patterns("out", "proofs", "must-fail"))

    def change(self, name: str, old: str, new: str) -> None:
        text = read(f"{self.top}/{name}")
        self.assertIn(old, text)
        mode = os.stat(f"{self.top}/{name}").st_mode
        os.chmod(put(f"{self.top}/{name}", text.replace(old, new)), mode)

    def checked(self) -> tuple[int, str]:
        ran = subprocess.run([f"{self.top}/docs/theorem/make.py", "--check"], capture_output=True, text=True, check=False)
        return ran.returncode, ran.stderr

    def test_it_is_of_the_tree(self):
        self.assertEqual(self.checked(), (0, ""))

    def test_a_changed_definition_is_told(self):
        self.change(RUNS, "pub record IsFirstFit ", "-- Otherwise than before.\npub record IsFirstFit ")
        status, errors = self.checked()
        self.assertEqual(status, 1)
        self.assertIn("a definition changed", errors)

    def test_a_definition_that_is_gone_is_named(self):
        self.change(RUNS, " IsFirstFit ", " IsFirstFitOnce ")
        status, errors = self.checked()
        self.assertEqual(status, 1)
        self.assertIn(f"{RUNS}: it has no definition IsFirstFit", errors)

    def test_definitions_that_are_not_quoted_are_named(self):
        self.change("docs/theorem/outline.md", f"@file {RUNS}\n", "")
        status, errors = self.checked()
        self.assertEqual(status, 1)
        self.assertIn(f"{RUNS} IsFirstFit\n", errors)

    def test_a_file_without_any_is_refused(self):
        self.change("docs/theorem/outline.md", f"@file {RUNS}\n", f"@file {RUNS}\n@file crates/page_alloc/specs/Lib.antt\n")
        self.assertEqual(self.checked(), (1, "docs/theorem/outline.md: crates/page_alloc/specs/Lib.antt has no definition that the statement rests on\n"))
