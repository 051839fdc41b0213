"""Runs of real Go programs that record themselves, by `record` as a user calls it."""

import glob
import json
import os
import pty
import shutil
import signal
import subprocess
import tempfile
import time
from collections import Counter

from goheap_tools.inside import recording as form
from goheap_tools.inside.facts import Facts
from goheap_tools.inside.names import names_of, who
from goheap_tools.inside.recording import Recording
from goheap_tools.tests.go_tools import PROGRAMS, RECORDER, GoTest, built, environment, recorded, toolchains

RECORD = os.path.join(RECORDER, "record")
FACTS = os.path.join(RECORDER, "facts")


class Runs(GoTest):
    """Each test has a folder of its own, with a blank in its name, and is there as it runs."""

    def setUp(self):
        outer = tempfile.TemporaryDirectory()
        self.addCleanup(outer.cleanup)
        self.folder = os.path.join(outer.name, "a folder")
        os.mkdir(self.folder)

    def record(self, *words, where=None, **more):
        return subprocess.run([RECORD, *words], cwd=where or self.folder, capture_output=True, text=True, timeout=300, env=environment(**more))

    def path(self, name):
        return os.path.join(self.folder, name)

    def files(self):
        return sorted(os.listdir(self.folder))

    def facts(self, name):
        """What the recording says, which has to be whole and to agree with the runtime wherever that counted."""
        with Recording(self.path(name)) as recording:
            facts = Facts(recording)
        self.assertTrue(facts.points)
        for point in facts.points:
            self.assertEqual(point.differences(), [], point.name)
        return facts

    def functions(self, name, facts):
        """Who allocated, by the names behind the recording."""
        with Recording(self.path(name)) as recording:
            names, why = names_of(recording, facts.stacks.values())
        self.assertIsNone(why)
        return {number: who(names.frames(stack))[0].function for number, stack in facts.stacks.items()}

    def process_of(self, name):
        """The process that writes this recording, by its header."""
        with open(self.path(name), "rb") as file:
            return int.from_bytes(file.read(32)[24:], "little")

    def tickets(self, name):
        """How many tickets were drawn, by the header."""
        with open(self.path(name), "rb") as file:
            return int.from_bytes(file.read(48)[40:], "little")

    def is_still(self, name):
        """Whether nothing is recorded for a while, though the program goes on."""
        before = self.tickets(name)
        time.sleep(1)
        return self.tickets(name) == before

    def until(self, holds):
        end = time.monotonic() + 60
        while not holds():
            self.assertLess(time.monotonic(), end)
            time.sleep(0.01)

    def start(self, *words):
        """A recorded program that runs until a signal comes; it ends with the test."""
        ran = subprocess.Popen([RECORD, *words], cwd=self.folder, stdout=subprocess.PIPE, stderr=subprocess.PIPE, text=True, env=environment())
        self.addCleanup(ran.wait)
        self.addCleanup(ran.terminate)
        self.addCleanup(ran.stdout.close)
        self.addCleanup(ran.stderr.close)
        self.assertEqual(ran.stdout.readline(), "ready\n", ran.stderr)
        return ran


class Builds(Runs):
    def test_a_program_is_built_and_records_itself(self):
        for version, go in toolchains().items():
            where = os.path.join(PROGRAMS, "modes")
            program = self.path(f"my {version}")
            ran = self.record("--", go, "build", "-o", program, ".", where=where)
            self.assertEqual((ran.returncode, ran.stdout), (0, ""), ran.stderr)
            self.assertIn(f"record: built with the overlay of go{version}", ran.stderr)
            # It runs as ever where nobody records it.
            plain = subprocess.run([program, "environment", "a b"], cwd=self.folder, capture_output=True, text=True, timeout=60)
            self.assertEqual((plain.returncode, plain.stdout, self.files()), (0, "arguments [a b]\n", [f"my {version}"]))
            ran = self.record("--", f"./my {version}", "environment", "a b", "--", "-o", "x")
            self.assertEqual((ran.returncode, ran.stdout), (0, "arguments [a b -- -o x]\n"))
            self.assertRegex(ran.stderr.splitlines()[-2], rf"^record: my {version}.heap: \d+ objects, 0 mark ends, \d+ stacks, ")
            self.assertEqual(ran.stderr.splitlines()[-1], f"record: next: facts 'my {version}.heap'")
            os.unlink(program)
            self.assertEqual(self.files(), [f"my {version}.heap"])
            # The names are behind the recording, so the program is not needed.
            functions = self.functions(f"my {version}.heap", self.facts(f"my {version}.heap"))
            self.assertIn("main.keep", functions.values())
            os.unlink(self.path(f"my {version}.heap"))

    def test_a_go_command_that_fails_keeps_its_status(self):
        go = toolchains()[max(toolchains())]
        with open(self.path("bad.go"), "w") as file:
            file.write("package main\nfunc main() { undefined() }\n")
        ran = self.record("--", go, "build", "bad.go")
        self.assertEqual((ran.returncode, "undefined: undefined" in ran.stderr, "built with" in ran.stderr), (1, True, False))

    def test_what_is_refused(self):
        go = toolchains()[max(toolchains())]
        for words, why in (
            (["--", go, "build", "-race", "."], "-race: the race detector changes what a program allocates"),
            (["--size", "1G", "--", go, "build", "."], "--size is of a run, and `go build` runs nothing here"),
            (["--keep-last", "--", go, "build", "."], "--keep-last is for logs"),
        ):
            ran = self.record(*words, where=os.path.join(PROGRAMS, "modes"))
            self.assertEqual((ran.returncode, ran.stdout), (2, ""))
            self.assertIn(f"record: {why}", ran.stderr)

    def test_what_the_overlay_changes_is_shown(self):
        for version, go in toolchains().items():
            ran = self.record("--show", "--", go)
            self.assertEqual(ran.returncode, 0, ran.stderr)
            self.assertRegex(ran.stdout, r"(?m)^--- .*/src/runtime/malloc\.go$")
            with open(self.record("--overlay", "--", go).stdout.strip()) as overlay:
                self.assertIn("malloc.go", str(json.load(overlay)["Replace"]))
            # Nothing of the runtime goes away but for lines that are changed.
            self.assertLess(sum(line.startswith("-") for line in ran.stdout.splitlines()), 40)


class GoRuns(Runs):
    """`go run` and `go test` record what they run."""

    def test_a_test_that_passes_fails_and_panics(self):
        where = os.path.join(PROGRAMS, "failing")
        for version, go in toolchains().items():
            for name, status, says in (("Passes", 0, "ok  \tfailing"), ("Fails", 1, "--- FAIL: TestFails"), ("Panics", 1, "panic: cc")):
                out = self.path(f"{name} {version}.heap")
                ran = self.record("-o", out, go, "test", ".", "-run", name, where=where)
                self.assertEqual(ran.returncode, status, ran.stderr)
                self.assertIn(says, ran.stdout)
                self.assertIn(f"{name} {version}.heap: ", ran.stderr)
                # The go command has taken the test's program away, and its names are there.
                self.assertIn("testing.(*T).Run", self.functions(out, self.facts(out)).values())

    def test_each_package_has_a_file(self):
        go = toolchains()[max(toolchains())]
        for package in ("one", "two/one"):
            os.makedirs(self.path(package))
            for file in ("failing.go", "failing_test.go"):
                shutil.copy(os.path.join(PROGRAMS, "failing", file), self.path(package))
        shutil.copy(os.path.join(PROGRAMS, "failing", "go.mod"), self.folder)
        ran = self.record("--", go, "test", "-run=Passes", "./...")
        self.assertEqual(ran.returncode, 0, ran.stderr)
        self.assertEqual([name for name in self.files() if name.endswith(".heap")], ["one.test.2.heap", "one.test.heap"])
        self.assertEqual(ran.stderr.count(" objects, "), 2)

    def test_go_run_ends_with_the_program_s_status(self):
        go = toolchains()[max(toolchains())]
        ran = self.record("-o", self.path("x.heap"), "--", go, "run", ".", "exit", "5", where=os.path.join(PROGRAMS, "modes"))
        self.assertEqual(ran.returncode, 5, ran.stderr)
        self.assertIn("exit status 5", ran.stderr)
        self.assertIn("main.keep", self.functions("x.heap", self.facts("x.heap")).values())

    def test_signals_reach_what_go_runs(self):
        go = toolchains()[max(toolchains())]
        ran = subprocess.Popen([RECORD, "-o", self.path("x.heap"), "--", go, "run", ".", "wait"], cwd=os.path.join(PROGRAMS, "modes"), stdout=subprocess.PIPE, stderr=subprocess.PIPE, text=True, env=environment())
        self.assertEqual(ran.stdout.readline(), "ready\n")
        ran.send_signal(signal.SIGUSR2)
        self.assertEqual((ran.communicate(timeout=60)[0], ran.returncode), ("came\n", 7))
        self.facts("x.heap")


class Ends(Runs):
    """However the program ends, its recording is there, and its status is `record`'s."""

    def test_statuses(self):
        for version in toolchains():
            program = recorded(version, "modes")
            for words, status, said in (([], 0, ""), (["keep", "10"], 0, ""), (["exit", "3"], 3, "status 3"), (["panic"], 2, "status 2")):
                ran = self.record("-o", "x.heap", "--", program, *words)
                self.assertEqual(ran.returncode, status, ran.stderr)
                self.assertEqual(f"the program ended with {said}" in ran.stderr, bool(said))
                self.facts("x.heap")
            self.assertIn("panic: on purpose", ran.stderr)

    def test_signals(self):
        for version in toolchains():
            for number, status in ((signal.SIGTERM, 143), (signal.SIGUSR2, 7), (signal.SIGHUP, 129)):
                ran = self.start("-o", "x.heap", "--", recorded(version, "modes"), "wait")
                self.until(lambda: self.tickets("x.heap") > 300)
                ran.send_signal(number)
                said = ran.communicate(timeout=60)[1]
                self.assertEqual(ran.returncode, status, said)
                self.assertGreater(self.facts("x.heap").points[-1].sums.mallocs, 100)

    def test_a_program_that_is_killed_loses_nothing(self):
        ran = self.start("-o", "x.heap", "--", recorded(max(toolchains()), "modes"), "wait")
        self.until(lambda: self.tickets("x.heap") > 2000)
        os.kill(self.process_of("x.heap"), signal.SIGKILL)
        said = ran.communicate(timeout=60)[1]
        self.assertEqual(ran.returncode, 137)
        self.assertIn("the program ended with signal SIGKILL (status 137)", said)
        facts = self.facts("x.heap")
        self.assertGreater(facts.points[-1].sums.collections, 2)
        self.assertLess(facts.left_out, 10)

    def test_a_recorder_that_is_killed_leaves_a_recording(self):
        ran = self.start("-o", "x.heap", "--", recorded(max(toolchains()), "modes"), "wait")
        process = self.process_of("x.heap")
        self.addCleanup(end, process)
        ran.kill()
        ran.wait(timeout=60)
        self.until(lambda: self.tickets("x.heap") > 300)
        end(process)
        self.assertIn("main.keep", self.functions("x.heap", self.facts("x.heap")).values())

    def test_a_full_file(self):
        for version in toolchains():
            ran = self.record("--size", "512K", "-o", "x.heap", "--", recorded(version, "modes"), "counts")
            self.assertEqual((ran.returncode, ran.stdout.count("mallocs")), (0, 17), ran.stderr)
            self.assertIn("the recording reached its size, and is whole up to there (see --size)", ran.stderr)
            facts = self.facts("x.heap")
            self.assertEqual(facts.header.state, 1)
            self.assertLess(facts.points[-1].sums.mallocs, 60_000)
            self.assertGreater(facts.points[-1].sums.mallocs, 5_000)
            self.assertIn("main.keep", self.functions("x.heap", facts).values())

    def test_a_file_system_without_room(self):
        place = self.path("small")
        os.mkdir(place)
        if subprocess.run(["mount", "-t", "tmpfs", "-o", "size=640k", "tmpfs", place], capture_output=True).returncode:
            self.skipTest("no small file system can be mounted here: only root may, where it may at all")
        self.addCleanup(subprocess.run, ["umount", place], check=True)
        for version in toolchains():
            ran = self.record("-o", "small/x.heap", "--", recorded(version, "modes"), "counts")
            self.assertEqual((ran.returncode, ran.stdout.count("mallocs")), (0, 17), ran.stderr)
            self.assertIn("the file system had no room left, and the recording is whole up to there", ran.stderr)
            facts = self.facts("small/x.heap")
            self.assertEqual(facts.header.state, 2)
            self.assertGreater(facts.points[-1].sums.mallocs, 5_000)

    def test_two_programs_on_one_file(self):
        program = recorded(max(toolchains()), "modes")
        first = self.start("-o", "x.heap", "--", program, "wait")
        second = self.record("-o", "x.heap", "--", program, "keep")
        self.assertEqual(second.returncode, 2)
        self.assertRegex(second.stderr, r"x\.heap is being written by process \d+: name another file")
        first.send_signal(signal.SIGUSR2)
        first.communicate(timeout=60)
        self.assertEqual(first.returncode, 7)
        self.facts("x.heap")
        # A recording that is finished makes way.
        self.assertEqual(self.record("-o", "x.heap", "--", program, "keep").returncode, 0)

    def test_what_is_there_stays(self):
        program = recorded(max(toolchains()), "modes")
        with open(self.path("mine"), "w") as file:
            file.write("a text of the user's own\n")
        os.symlink("mine", self.path("link"))
        for out, why in (("mine", "mine is there, and is not a recording: name another file"), ("link", "link is there, and is no file that a recording could take the place of"),
                         ("none/x.heap", "none: no such folder"), (".", "is there, and is no file"), ("a%pb", "%p in a name stands for the process")):  # fmt: skip
            ran = self.record("-o", out, "--", program, "keep")
            self.assertEqual((ran.returncode, ran.stdout, self.files()), (2, "", ["link", "mine"]), out)
            self.assertIn(why, ran.stderr)
        with open(self.path("mine")) as file:
            self.assertEqual(file.read(), "a text of the user's own\n")


class Children(Runs):
    def test_the_first_process_alone(self):
        for version in toolchains():
            ran = self.record("-o", "x.heap", "--", recorded(version, "modes"), "children", "2")
            self.assertEqual((ran.returncode, self.files()), (0, ["x.heap"]), ran.stderr)
            self.facts("x.heap")
            ran = self.record("-o", "x.heap", "--", recorded(version, "modes"), "environment")
            self.assertEqual(ran.stdout, "arguments []\n")  # none of our variables

    def test_each_process_has_its_own(self):
        for version in toolchains():
            ran = self.record("--keep-children", "-o", "x.heap", "--", recorded(version, "modes"), "children", "2")
            self.assertEqual(ran.returncode, 0, ran.stderr)
            self.assertEqual(len(self.files()), 5)  # itself, two children, and a child of each
            for name in self.files():
                with Recording(self.path(name)) as recording:
                    self.assertEqual(name, f"x.{recording.header.process}.heap")
                self.assertIn("main.keep", self.functions(name, self.facts(name)).values())
                os.unlink(self.path(name))

    def test_a_script_that_starts_a_program(self):
        # What a script starts is of its log, or of its recording where it was built so; `--keep-children` says that it is asked for.
        with open(self.path("script"), "w") as file:
            file.write(f"#!/bin/sh\n'{recorded(max(toolchains()), 'modes')}' keep 10\nexit 4\n")
        os.chmod(self.path("script"), 0o755)
        ran = self.record("--keep-children", "--", "./script")
        self.assertEqual(ran.returncode, 4, ran.stderr)
        self.assertRegex(" ".join(self.files()), r"^script script\.\d+\.heap$")


class Agreement(Runs):
    """The recording and the runtime count the same."""

    def check(self, version, mode, **more):
        ran = self.record("-o", "x.heap", "--", recorded(version, "modes"), mode, **more)
        self.assertEqual(ran.returncode, 0, ran.stderr)
        facts = self.facts("x.heap")
        self.assertEqual(facts.left_out, 0)
        told = [json.loads(line) for line in ran.stdout.splitlines()]
        points = [point for point in facts.points if point.name == "ReadMemStats"]
        found = [{"mallocs": sums.mallocs, "frees": sums.frees, "heap_alloc": sums.heap_alloc, "heap_in_use": sums.heap_in_use, "stack_in_use": sums.stack_in_use, "idle": sums.idle,
                  "released": sums.released * form.PAGE, "collections": sums.collections, "total": sums.allocated} for sums in (point.sums for point in points)]  # fmt: skip
        self.assertEqual(found, told)
        return facts, points

    def test_counts_are_those_of_mem_stats(self):
        for version in toolchains():
            for processors in ("1", "4"):
                facts, points = self.check(version, "counts", GOMAXPROCS=processors)
                self.assertEqual({point.processors for point in points}, {int(processors)})
                self.assertGreater(points[-1].sums.mallocs, 150_000)
                self.assertGreater(points[-1].sums.empty, 8_000)

    def test_processors_that_change(self):
        for version in toolchains():
            facts, points = self.check(version, "processors", GOMAXPROCS="2")
            self.assertEqual([point.processors for point in points], [1, 3, 2, 4, 1, 1])
            self.assertGreater(facts.points[-1].sums.flushes, 10)

    def test_profiles_are_those_of_go(self):
        # At rate 1 Go's profile has each object; at another rate those that are told as sampled.
        for version in toolchains():
            for rate in (1, 4096):
                ran = self.record("-o", "x.heap", "--", recorded(version, "modes"), "profile", str(rate))
                self.assertEqual(ran.returncode, 0, ran.stderr)
                facts = self.facts("x.heap")
                self.assertEqual(facts.rate, rate)
                functions, found = self.functions("x.heap", facts), Counter()
                for word, count in facts.sampled.items():
                    found[functions[word & 0xFFFFFFFF]] += count
                told = json.loads(ran.stdout)
                for function in ("main.keep", "main.empty", "main.work", "main.work.func1", "strconv.formatBits", "runtime.malg"):
                    self.assertEqual(found[function], told.get(function, 0), (version, rate, function))
                self.assertGreater(found["main.keep"], 2000 if rate == 1 else 0)


class Asked(Runs):
    """Where a recording begins, and how much of it is asked for."""

    def test_from_a_mark_end(self):
        for version in toolchains():
            ran = self.record("--from", "3", "-o", "x.heap", "--", recorded(version, "modes"), "counts")
            self.assertEqual(ran.returncode, 0, ran.stderr)
            facts = self.facts("x.heap")
            self.assertEqual(facts.points[0].name, "mark end 3")
            self.assertGreater(len(facts.points), 5)

    def test_from_a_signal(self):
        for version in toolchains():
            ran = self.start("--from", "signal", "-o", "x.heap", "--", recorded(version, "modes"), "wait")
            ran.send_signal(signal.SIGUSR1)
            self.until(lambda: self.tickets("x.heap") > 300)
            ran.send_signal(signal.SIGUSR1)
            self.until(lambda: self.is_still("x.heap"))
            ran.send_signal(signal.SIGUSR2)
            said = ran.communicate(timeout=60)[1]
            self.assertEqual(ran.returncode, 7, said)
            facts = self.facts("x.heap")
            self.assertGreater(len(facts.points), 2)
            self.assertIs(type(facts.boundaries[-1]), form.Stop)

    def test_every(self):
        for version in toolchains():
            ran = self.record("--every", "10", "-o", "x.heap", "--", recorded(version, "modes"), "counts", GOMAXPROCS="1")
            self.assertEqual(ran.returncode, 0, ran.stderr)
            facts = self.facts("x.heap")
            told = sum(count for word, count in facts.full.items() if word & 0xFFFFFFFF)
            self.assertLess(abs(told / facts.full.total() - 0.1), 0.01)

    def test_options_that_cannot_be(self):
        program = recorded(max(toolchains()), "modes")
        for words, why in ((["--size", "1K"], "'1K' is no size from 256K to 16T, such as 500M or 8G"), (["--size", "much"], "'much' is no size"), (["--from", "0"], "'0' is neither a mark end"),
                           (["--every", "0"], "'0' is no number from 1"), (["--rate", "1"], "--rate is for logs, and"), (["--rat", "1"], "--rate is for logs, and")):  # fmt: skip
            ran = self.record(*words, "--", program, "keep")
            self.assertEqual((ran.returncode, ran.stdout, self.files()), (2, "", []))
            self.assertIn(why, ran.stderr)


class Told(Runs):
    def test_a_terminal_shows_a_line(self):
        ours, theirs = pty.openpty()
        ran = subprocess.Popen([RECORD, "-o", "x.heap", "--", recorded(max(toolchains()), "modes"), "wait"], cwd=self.folder, stdout=subprocess.PIPE, stderr=theirs, text=True, env=environment())
        os.close(theirs)
        self.addCleanup(ran.stdout.close)
        said, until = "", time.monotonic() + 30
        while said.count("\r") < 3 and time.monotonic() < until:
            said += os.read(ours, 10000).decode()
        self.assertRegex(said, r"\rrecord: x\.heap: [\d,]+ objects, \d+ mark ends, [\d.]+\wB, [\d.]+[kM]B in use")
        ran.send_signal(signal.SIGUSR2)
        while True:
            try:
                said += os.read(ours, 10000).decode()
            except OSError:
                break
        os.close(ours)
        self.assertEqual(ran.wait(timeout=60), 7)
        self.assertIn("\r\033[Krecord: the program ended with status 7", said)

    def test_no_terminal_shows_none(self):
        ran = self.record("-o", "x.heap", "--", recorded(max(toolchains()), "modes"), "keep", "100000")
        self.assertEqual(len(ran.stderr.splitlines()), 2, ran.stderr)

    def test_a_program_that_was_not_built_so_is_recorded_by_its_log(self):
        for version in toolchains():
            ran = self.record("-o", "x.trace", "--", built(version, "modes"), "exit", "3")
            self.assertEqual(ran.returncode, 3, ran.stderr)
            self.assertRegex(ran.stderr.splitlines()[0], rf"was not built to record itself, so its log is read \(go{version}.*`record -- go build")
            with open(self.path("x.trace")) as file:
                self.assertTrue(file.readline().startswith("goheap "))
            # The log of a program that could record itself, where it is asked for.
            ran = self.record("--log", "-o", "y.trace", "--", recorded(version, "modes"), "exit", "3")
            self.assertEqual((ran.returncode, self.files()), (3, ["stacks", "x.trace", "y.trace"]))
            for name in self.files():
                os.unlink(self.path(name))


class GoTools(Runs):
    """Programs of Go's own."""

    def test_gofmt(self):
        version = max(toolchains())
        files = sorted(glob.glob(os.path.join(toolchain_root(version), "src", "go", "printer", "*.go")))
        ran = self.record("-o", "x.heap", "--", recorded(version, "cmd/gofmt"), "-l", *files)
        self.assertEqual((ran.returncode, ran.stdout), (0, ""), ran.stderr)
        facts = self.facts("x.heap")
        self.assertGreater(facts.points[-1].sums.mallocs, 40_000)
        self.assertIn("go/parser.(*parser).parseIdent", self.functions("x.heap", facts).values())

    def test_go_vet_starts_others(self):
        version = max(toolchains())
        where = os.path.join(PROGRAMS, "failing")
        ran = self.record("--keep-children", "-o", self.path("x.heap"), "--", toolchains()[version], "vet", f"-vettool={recorded(version, 'cmd/vet')}", ".", where=where)
        self.assertEqual(ran.returncode, 0, ran.stderr)
        self.assertGreater(len(self.files()), 1)
        for name in self.files():
            self.facts(name)

    def test_a_program_with_c(self):
        if not shutil.which("gcc"):
            self.skipTest("no C compiler is on this machine")
        for version in toolchains():
            ran = self.record("-o", "x.heap", "--", recorded(version, "withc"), where=None)
            self.assertEqual((ran.returncode, ran.stdout), (0, "124750\n500\n"), ran.stderr)
            facts = self.facts("x.heap")
            functions = self.functions("x.heap", facts)
            made = sum(count for word, count in facts.full.items() if functions[word & 0xFFFFFFFF] == "main.goCallback" and word >> 32 == 80)
            self.assertEqual(made, 500)

    def test_a_server(self):
        version = max(toolchains())
        where = os.path.join(os.path.dirname(RECORDER), "examples", "programs", "server")
        ran = self.record("-o", self.path("x.heap"), "--", toolchains()[version], "run", ".", "-requests", "200", where=where)
        self.assertEqual(ran.returncode, 0, ran.stderr)
        facts = self.facts("x.heap")
        functions = Counter(self.functions("x.heap", facts).values())
        self.assertIn("net/http.(*Server).Serve", functions)
        self.assertGreater(facts.points[-1].sums.mallocs, 10_000)


def end(process):
    """Ends a process that is no child of ours, and waits until it is gone."""
    until = time.monotonic() + 30
    while time.monotonic() < until:
        try:
            os.kill(process, signal.SIGKILL)
        except ProcessLookupError:
            return
        time.sleep(0.01)


def toolchain_root(version):
    said = subprocess.run([toolchains()[version], "env", "GOROOT"], capture_output=True, text=True, check=True, env=environment())
    return said.stdout.strip()
