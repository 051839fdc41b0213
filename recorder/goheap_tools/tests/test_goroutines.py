"""Tests of `goroutines`: goroutines by state and stack over the mark ends of a log, and what the other tools take from them."""

import json
import os
import subprocess

from goheap_tools.formats import golog
from goheap_tools.tests.go_tools import GoTest, environment, toolchains
from goheap_tools.tests.testing import Folder, block, rows, run

MAIN = ("goroutine 1 [running]:\n\tgoroutine running on other thread; stack unavailable\n",)
PROGRAM = """package main

import (
	"os/exec"
	"os"
	"runtime"
)

var keep []chan int

func waits(c chan int) { <-c }

func starts(n int) {
	for i := 0; i < n; i++ {
		c := make(chan int)
		keep = append(keep, c)
		go waits(c)
	}
}

func main() {
	if len(os.Args) > 1 && os.Args[1] == "child" {
		return
	}
	for i := 0; i < 4; i++ {
		starts(3)
		runtime.Gosched()
		runtime.GC()
	}
	if len(os.Args) > 1 {
		exec.Command(os.Args[0], "child").CombinedOutput()
		runtime.GC()
		runtime.GC()
	}
}
"""


def goroutine(number, state, *frames, created=None):
    """A goroutine as the runtime prints it; a frame is its function, its place, and where its frame ends and begins on the stack."""
    lines = [f"goroutine {number} [{state}]:\n"]
    for function, place, top, bottom in frames:
        lines.append(f"{function}(0x1)\n\t{place} +0x1 fp={top:#x} sp={bottom:#x} pc=0x1\n")
    return "".join(lines) + (f"created by {created}\n\t/go/x.go:1 +0x1\n" if created else "")


def collection(*goroutines):
    return "tracegc()\n\n" + "\n".join(goroutines) + "end tracegc\n\n"


def waiting(number, state="chan receive", created="main.starts"):
    """Its frames take 0x200 - 0x100 = 256 bytes."""
    return goroutine(number, state, ("runtime.gopark", "/go/proc.go:363", 0x140, 0x100), ("main.waits", "/m.go:7", 0x200, 0x140), created=created)


OWN = goroutine(3, "GC sweep wait", ("runtime.bgsweep", "/go/mgcsweep.go:297", 0x90, 0x10), created="runtime.gcenable")
FIRST = collection(*MAIN, OWN, waiting(7))
SECOND = collection(*MAIN, OWN, waiting(7, "chan receive, 2 minutes"), waiting(8, created="main.starts in goroutine 1"), waiting(9))
THIRD = collection(*MAIN, OWN, waiting(8), waiting(9))
LOG = block(0xC000000000) + FIRST + block(0xC000000010) + SECOND + THIRD


class Goroutines(Folder):
    def table(self, *words, log=LOG):
        status, out, said = run("goroutines", self.put("log", log), *words)
        self.assertEqual((status, said), (0, ""))
        return out

    def test_read(self):
        found = [event for event in golog.events([LOG]) if isinstance(event, golog.Collection)]
        self.assertEqual([len(event.goroutines) for event in found], [3, 5, 4])
        frames = ("runtime.gopark /go/proc.go:363", "main.waits /m.go:7")
        self.assertEqual(found[1].goroutines[2:4], (golog.Goroutine("chan receive", frames, "main.starts", 256),) * 2)
        self.assertEqual(found[0].goroutines[0], golog.Goroutine("running", (), "", 0))

    def test_the_table(self):
        # one waits at the first mark end, three at the second, two at the third: one more than at the first, and it grew at one of two
        self.assertEqual(
            rows(self.table()),
            rows(
                """Mark end 3: 3 goroutines, whose frames take 512B of their stacks; 1 of the runtime's own are left out (--all)
                Showing 2 of 2 kinds, by state, stack and who started them
                count since 1 grew stacks state function
                2 +1 1/2 512B chan receive main.waits /m.go:7, started by main.starts
                1 0 0/2 0B running (running on another thread)"""
            ),
        )

    def test_at_a_mark_end(self):
        self.assertIn("Mark end 1: 2 goroutines, whose frames take 256B", self.table("--at", "1"))
        self.assertEqual(rows(self.table("--at", "2"))[3][:4], ["3", "+2", "1/1", "768B"])

    def test_order_and_top(self):
        log = LOG + collection(*MAIN, waiting(8), *(waiting(number, created="main.new") for number in (20, 21)))
        self.assertEqual([row[0] for row in rows(self.table("--sort", "grew", log=log))[3:]], ["2", "1", "1"])
        self.assertEqual(rows(self.table("--sort", "grew", "--top", "1", log=log))[3][-1], "main.new")
        self.assertEqual(len(rows(self.table("--top", "1"))), 4)

    def test_frames_and_all(self):
        self.assertIn("runtime.bgsweep /go/mgcsweep.go:297, started by runtime.gcenable", self.table("--all"))
        log = collection(goroutine(1, "select, locked to thread", ("main.f", "/m.go:1", 0x20, 0x10), ("main.main", "/m.go:9", 0x30, 0x20)))
        told = self.table("--frames", log=log).splitlines()
        self.assertRegex(told[3], r"^ +1 +32B  select, locked to thread main\.f /m\.go:1$")
        self.assertEqual(told[4].strip(), "main.main /m.go:9")

    def test_json(self):
        found = json.loads(self.table("--json"))
        self.assertEqual((found["mark_end"], found["first_mark_end"], found["goroutines"], found["of_the_runtime"]), (3, 1, 3, 1))
        self.assertEqual(found["rows"][0], {"count": 2, "since": 1, "grew": 1, "most": 3, "stack": 512, "state": "chan receive", "function": "main.waits", "frames": ["main.waits /m.go:7"], "created_by": "main.starts"})

    def test_what_is_no_log(self):
        self.assertEqual(run("goroutines", self.put("trace", "goheap 1\n"))[0], 2)
        status, _, said = run("goroutines", self.put("log", block(0xC000000000)))
        self.assertEqual((status, "no mark end was found" in said), (2, True))
        status, _, said = run("goroutines", self.put("log", LOG), "--at", "4")
        self.assertEqual((status, said), (2, f"goroutines: {self.folder.name}/log: there are mark ends 1 to 3, and no 4\n"))

    def test_recordings_have_none(self):
        path = os.path.join(self.folder.name, "x.heap")
        with open(path, "wb") as file:
            file.write(b"goheaprc" + bytes(4096))
        status, _, said = run("goroutines", path)
        self.assertEqual(status, 2)
        self.assertIn("a recording has objects and the pages of stacks (`facts` shows them), and no goroutines", said)

    def test_leaks_tells_what_their_frames_take(self):
        log, trace, stacks = self.put("log", LOG), os.path.join(self.folder.name, "trace"), os.path.join(self.folder.name, "stacks")
        status, _, said = run("record", log, "--stacks", stacks, "-o", trace)
        self.assertEqual(status, 0, said)
        status, out, said = run("leaks", "--trace", trace, "--stacks", stacks)
        self.assertEqual((status, out.splitlines()[0].partition("; ")[2]), (0, "all objects of the trace; goroutine stacks are not in this, of which frames take 896B"))


class OfGo(Folder, GoTest):
    def test_a_program_whose_goroutines_stay(self):
        for version, go in toolchains().items():
            with self.subTest(version=version):
                program = self.built(go, version)
                log = os.path.join(self.folder.name, "log")
                with open(log, "w") as file:
                    subprocess.run([program], stderr=file, env={**os.environ, "GODEBUG": "allocfreetrace=1", "GOGC": "off"}, check=True, timeout=60)
                status, out, said = run("goroutines", log)
                self.assertEqual((status, said), (0, ""))
                self.assertRegex(out.splitlines()[3], r"^ +12 +\+9 +3/3 +[0-9.]+kB  chan receive +main\.waits .*main\.go:11, started by main\.starts$")

    def test_a_child_s_log_in_the_buffers_of_the_program(self):
        for version, go in toolchains().items():
            with self.subTest(version=version):
                program = self.built(go, version)
                at = os.getcwd()
                os.chdir(self.folder.name)
                self.addCleanup(os.chdir, at)
                trace, stacks = (os.path.join(self.folder.name, name) for name in ("t", "s"))
                status, _, said = run("record", "--stacks", stacks, "-o", trace, "--", program, "parent")
                self.assertEqual(status, 0, said)
                self.assertRegex(said, r"record: [0-9.]+[kM]B of what was allocated are buffers in which the program collects what its children write \(os/exec\)\. A child that is a Go program inherits GODEBUG")
                status, _, said = run("record", "--stacks", stacks, "-o", trace, "--", program)
                self.assertNotIn("children", said)

    def built(self, go, version):
        folder = os.path.join(self.folder.name, version)
        os.makedirs(folder, exist_ok=True)
        for name, text in (("main.go", PROGRAM), ("go.mod", "module waits\n\ngo 1.19\n")):
            with open(os.path.join(folder, name), "w") as file:
                file.write(text)
        out = os.path.join(folder, "waits")
        subprocess.run([go, "build", "-o", out, "."], cwd=folder, env=environment(), check=True, timeout=300)
        return out
