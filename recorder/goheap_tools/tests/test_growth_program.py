"""The test of a program by `leaks --base`, which examples/programs/growth/test.sh is, passes, and with the word `leak` it fails."""

import os
import subprocess

from .go_tools import GoTest, environment, toolchains
from .testing import HERE

SCRIPT = os.path.join(HERE, "..", "examples", "programs", "growth", "test.sh")


class Growth(GoTest):
    def test_a_program_that_keeps_nothing_and_one_that_leaks(self):
        for version, go in toolchains().items():
            with self.subTest(version=version):
                ran = self.ran(go)
                self.assertEqual(ran.returncode, 0, ran.stdout + ran.stderr)
                ran = self.ran(go, "leak")
                self.assertEqual(ran.returncode, 1, ran.stdout + ran.stderr)
                self.assertRegex(ran.stdout + ran.stderr, r"main\.serve grew by \d+\.\d\dkB, more than 64\.00kB")

    def ran(self, go, *words):
        return subprocess.run([SCRIPT, *words], env=environment(GO=go), capture_output=True, text=True, timeout=300)
