"""Tests of the package as a whole: its types, its entry points and its scripts."""

import ast
import glob
import os
import shutil
import subprocess
import sys
import tomllib
import unittest

from goheap_tools.tests.testing import HERE

TOOLS = ("compare", "explain", "facts", "goroutines", "leaks", "look", "pair", "picture", "pins", "pprof", "record")


def functions(path):
    """The functions of a file that others may call, with where they stand: of the module, and of its classes."""
    with open(path) as file:
        tree = ast.parse(file.read())
    for node in ast.walk(tree):
        if isinstance(node, (ast.Module, ast.ClassDef)):
            for one in node.body:
                if isinstance(one, ast.FunctionDef) and not one.name.startswith("_"):
                    yield f"{path}:{one.lineno}: {one.name}", one


class Types(unittest.TestCase):
    def test_each_public_function_has_types(self):
        paths = [path for path in glob.glob(os.path.join(HERE, "goheap_tools", "**", "*.py"), recursive=True) if "tests" not in path.split(os.sep)]
        self.assertGreater(len(paths), 20)
        for path in paths:
            for name, function in functions(path):
                arguments = [one for one in function.args.posonlyargs + function.args.args + function.args.kwonlyargs if one.arg not in ("self", "cls")]
                self.assertTrue(all(one.annotation for one in arguments) and function.returns is not None, name)

    def test_the_types_agree(self):
        mypy = shutil.which("mypy")
        if not mypy:
            self.skipTest("mypy, which checks the types, is not on this machine (Debian's package mypy)")
        ran = subprocess.run([mypy, "--cache-dir", os.devnull], cwd=HERE, capture_output=True, text=True)
        self.assertEqual(ran.returncode, 0, ran.stdout + ran.stderr)


class Scripts(unittest.TestCase):
    def test_each_tool_is_a_script_and_an_entry_point(self):
        with open(os.path.join(HERE, "pyproject.toml"), "rb") as file:
            project = tomllib.load(file)["project"]
        self.assertEqual(sorted(project["scripts"]), [f"goheap-{tool}" for tool in TOOLS])
        for tool in TOOLS:
            module, _, function = project["scripts"][f"goheap-{tool}"].partition(":")
            ran = subprocess.run([sys.executable, "-c", f"import sys; sys.argv[0] = 'x'; from {module} import {function}; {function}()", "--help"], cwd=HERE, capture_output=True, text=True)
            script = subprocess.run([os.path.join(HERE, tool), "--help"], capture_output=True, text=True)
            self.assertEqual((ran.returncode, ran.stdout, ran.stderr), (0, script.stdout, script.stderr))
            self.assertIn("usage: ", script.stdout)
