"""Tests on a small Go program that is compiled and recorded."""

import glob
import os
import re
import shutil
import subprocess
import sys

from goheap_tools.formats import traces
from goheap_tools.formats.stacks import stacks_in
from goheap_tools.tests.testing import HERE, Folder, rows, run

PROGRAM = """package main

import "runtime"

type node struct {
\tnext *node
\tn    int
}

var keep *node

//go:noinline
func leak(i int) { keep = &node{keep, i} }

//go:noinline
func waste(i int) []byte { return make([]byte, 1000+i) }

func main() {
\tfor i := 0; i < 5; i++ {
\t\tleak(i)
\t\t_ = waste(i)
\t\truntime.GC()
\t}
}
"""


def go_command():
    """A Go of 1.19 to 1.21, or nothing."""
    for path in [shutil.which("go"), *sorted(glob.glob("/usr/lib/go-1.*/bin/go"))]:
        if path:
            told = subprocess.run([path, "version"], capture_output=True, text=True).stdout
            if re.search(r"go1\.(19|20|21)\b", told):
                return path
    return None


class RealProgram(Folder):
    def setUp(self):
        super().setUp()
        go = go_command()
        if go is None:
            self.skipTest("no Go 1.19 to 1.21 was found")
        folder = self.folder.name
        self.put("main.go", PROGRAM)
        self.put("go.mod", "module small\n\ngo 1.19\n")
        env = {**os.environ, "GOCACHE": os.path.join(folder, "cache"), "GOFLAGS": "-mod=mod", "HOME": folder}
        subprocess.run([go, "build", "-o", "small", "."], cwd=folder, env=env, check=True, capture_output=True)
        ran = subprocess.run(["./small"], cwd=folder, env={**env, "GODEBUG": "allocfreetrace=1"}, capture_output=True, text=True)
        self.log, self.stacks = self.put("log", ran.stderr), os.path.join(folder, "stacks")
        status, text, said = run("record", self.log, "--program", os.path.join(folder, "small"), "--stacks", self.stacks, "--keep-last")
        self.assertEqual(status, 0, said)
        self.trace = self.put("trace", text)

    def test_a_small_program(self):
        trace, frames = traces.trace_in(self.trace), stacks_in(self.stacks)
        by = lambda name: [one for one, event in enumerate(trace.events) if any(frame.startswith(f"main.{name} ") for frame in frames[event.stack])]
        leaked, wasted = by("leak"), by("waste")
        self.assertEqual([trace.events[one].size for one in leaked], [16] * 5)
        self.assertTrue(all(trace.events[one].has_pointers for one in leaked))
        self.assertEqual([trace.events[one].size for one in wasted], [1000 + i for i in range(5)])
        self.assertFalse(any(trace.events[one].has_pointers for one in wasted))
        self.assertEqual(trace.mark_ends, 5)
        # Each mark end finds all nodes so far.
        for mark_end in range(1, trace.mark_ends):
            self.assertEqual([one for one in trace.marked(mark_end) if one in leaked], leaked[:mark_end])

    def test_from_the_log_to_the_tables(self):
        """With the report of the plain model, which is that of the program."""
        with open(self.trace) as file:
            made = subprocess.run([sys.executable, os.path.join(HERE, "..", "model", "run.py"), "--each"], stdin=file, capture_output=True, text=True)
        report_of = self.put("report", made.stdout)
        status, table, said = run("leaks", report_of, "--stacks", self.stacks, "--buckets", "--top", "100")
        self.assertEqual(status, 0)
        # How many objects the runtime allocates behind the last mark end differs from run to run, and a share of some size is told.
        self.assertRegex(said, r"^(leaks: [0-9]+ % of the objects \([0-9]+ of [0-9]+\) came behind the last mark end, and are in no count\n)?$")
        leaking = [row for row in rows(table) if "main.leak" in row]
        # The five nodes of 16 bytes are in use, and grew from one at each of the four mark ends behind the first.
        self.assertEqual([row[0:1] + row[3:9] for row in leaking], [["80B", "5", "5", "0", "16", "64B", "4/4"]])
        functions = run("leaks", report_of, "--stacks", self.stacks, "--top", "100")[1]
        self.assertEqual([row[0:1] + row[5:9] for row in rows(functions) if row[-1] == "main.leak"], [["80B", "5", "80B", "64B", "4/4"]])
        exact = run("leaks", "--trace", self.trace, "--stacks", self.stacks, "--buckets", "--top", "100")[1]
        self.assertEqual(table.splitlines()[1:], exact.splitlines()[1:])
        self.assertEqual(run("picture", report_of)[0], 0)
        status, counts, said = run("compare", self.log, self.trace, report_of)
        self.assertEqual((status, said), (0, ""))
        self.assertIn("refused by the model                               0    0.0%", counts)
