"""Recordings of real programs, held against the allocator's rules and the runtime's own counters."""

import os
import re
import shutil
import signal
import subprocess
import tempfile
import unittest
from collections import Counter

from goheap_tools.inside.recording import (
    COUNTS, EMPTY, LARGE, NOT_ASKED, OBJECT, RIDER, SAMPLED, Begin, Counts, Object, Recording, Stop)  # fmt: skip
from goheap_tools.inside.truth import Checker

from . import go_tools
from .go_tools import GoTest, recorded, toolchains

RUNS = ("small", "tiny", "large", "finalizers", "given", "processors", "forty", "stacks", "sampled")
SECONDS = 120


class Runs(GoTest):
    """Runs programs that record themselves."""

    def setUp(self):
        self.folder = tempfile.mkdtemp(prefix="goheap inside ")
        self.addCleanup(shutil.rmtree, self.folder)

    def path(self, name="one.recording"):
        return os.path.join(self.folder, name)

    def environment(self, path, processors=None, **more):
        names = {f"GOHEAP_RECORD_{name.upper()}": str(value) for name, value in more.items()}
        given = {name: value for name, value in os.environ.items() if not name.startswith(("GOHEAP_RECORD", "GOGC", "GODEBUG", "GOMAXPROCS"))}
        if path:
            names["GOHEAP_RECORD"] = path
        if processors:
            names["GOMAXPROCS"] = str(processors)
        return {**given, **names}

    def run_program(self, words, path, **more):
        """What it printed, on both ways."""
        run = subprocess.run(words, env=self.environment(path, **more), capture_output=True, text=True, timeout=SECONDS)
        self.assertEqual(run.returncode, 0, run.stderr)
        return run.stdout + run.stderr

    def checked(self, path):
        """The recording's checker, behind its last event."""
        with Recording(path) as recording:
            return Checker().all(recording.events())

    def start(self, words, path, **more):
        run = subprocess.Popen(words, env=self.environment(path, **more), stdin=subprocess.PIPE, stdout=subprocess.PIPE, text=True)
        self.addCleanup(run.stdin.close)
        self.addCleanup(run.stdout.close)
        self.addCleanup(run.wait)
        self.addCleanup(run.kill)
        return run


class Truth(Runs):
    def test_each_event_obeys_the_rules_and_the_counts_are_the_runtime_s(self):
        for version in toolchains():
            program = recorded(version, "heaps")
            for processors in (1, 4):
                for run in RUNS:
                    with self.subTest(version=version, processors=processors, run=run):
                        path = self.path(f"{version}-{processors}-{run}")
                        said = self.run_program([program, run], path, processors=processors)
                        self.agree(path, said)

    def agree(self, path, said):
        """The last counters that the program printed are those that the events come to, object by object."""
        with Recording(path) as recording:
            self.assertFalse(recording.header.full)
            checker, told = Checker(), None
            for event in checker.through(recording.events()):
                if isinstance(event, Counts) and event.kind == COUNTS:
                    totals = checker.totals
                    told = (totals.mallocs, totals.frees, totals.allocated - totals.freed, totals.heap_in_use, totals.stack_in_use, event.collections)
            self.assertEqual((recording.missing, recording.left_out), (recording.header.next_ticket, 0))
        self.assertGreater(checker.totals.mallocs, 200)
        counted = re.findall(r"^counted (\d+) (\d+) (\d+) (\d+) (\d+) (\d+)$", said, re.MULTILINE)
        if counted:
            self.assertEqual(tuple(map(int, counted[-1])), told)
            self.assertGreater(checker.compared, len(counted))

    def test_a_program_with_c(self):
        for version in toolchains():
            if not shutil.which("gcc"):
                self.skipTest("no C compiler is on this machine")
            with self.subTest(version=version):
                path = self.path(version)
                program = recorded(version, "withc")
                self.assertEqual(self.run_program([program], path), "124750\n500\n")
                self.assertGreater(self.checked(path).totals.mallocs, 500)

    def test_go_s_own_profile_sampled_what_is_told(self):
        for version in toolchains():
            with self.subTest(version=version):
                path = self.path(version)
                said = self.run_program([recorded(version, "heaps"), "sampled"], path, processors=1)
                with Recording(path) as recording:
                    told = sum(1 for event in recording.events() if isinstance(event, Object) and event.flags & SAMPLED)
                self.assertEqual(said.splitlines()[-1], f"sampled {told}")
                self.assertGreater(told, 1000)


class Unchanged(Runs):
    """The program does what it does without the recorder."""

    def test_addresses_on_one_processor(self):
        """What the runtime's own threads do meanwhile makes it one of two rows of addresses, and of some rare ones, with the recorder
        and without. The row that most runs with the recorder give is one that the plain program gives."""
        for version in toolchains():
            plain, inside = go_tools.built(version, "heaps"), recorded(version, "heaps")
            row, _ = Counter(self.addresses(inside, self.path(f"{version}-{run}")) for run in range(7)).most_common(1)[0]
            with self.subTest(version=version):
                self.assertEqual(len(row.split()), 60)
                self.assertTrue(any(self.addresses(plain, None) == row for _ in range(100)))

    def addresses(self, program, path):
        environment = {**self.environment(path, processors=1), "GOGC": "off"}
        run = subprocess.run([program, "addresses"], env=environment, capture_output=True, text=True, timeout=SECONDS)
        return run.stderr

    def test_frames_on_goroutines_stacks_are_as_large_as_before(self):
        """Else a stack would grow at another depth, and what it has would lie elsewhere."""
        names = ["mallocgc", "profilealloc", "gcStart", r"\(\*mcache\)\.refill", r"\(\*mcache\)\.releaseAll", r"\(\*sweepLocked\)\.sweep"]
        for version, go in toolchains().items():
            for name in names:
                with self.subTest(version=version, name=name):
                    before, after = (self.frame(go, program(version, "heaps"), name) for program in (go_tools.built, recorded))
                    self.assertTrue(before)
                    self.assertEqual(after, before)

    def frame(self, go, program, name):
        """The bytes by which a function lowers the stack pointer."""
        text = subprocess.run([go, "tool", "objdump", "-s", rf"^runtime\.{name}$", program], capture_output=True, text=True, timeout=SECONDS).stdout
        return next((int(low or high, 16) for low, high in re.findall(r"(?:SUBQ \$0x(\w+)|ADDQ \$-0x(\w+)), SP", text)), 0)

    def test_the_program_sees_its_own_environment(self):
        for version in toolchains():
            program = recorded(version, "heaps")
            with self.subTest(version=version):
                said = self.run_program([program, "child", "child"], self.path(version), every=1)
                self.assertEqual(said, "variables 0\nvariables 0\n")
                self.assertEqual([name for name in os.listdir(self.folder) if name.startswith(version)], [version])
                self.checked(self.path(version))
            with self.subTest(version=version, each=True):
                said = self.run_program([program, "child", "child"], self.path(version + "-%p"))
                self.assertEqual(said, "variables 1\nvariables 1\n")
                paths = [self.path(name) for name in os.listdir(self.folder) if name.startswith(version + "-")]
                self.assertEqual(len(paths), 2)
                for path in paths:
                    self.checked(path)
                    with Recording(path) as recording:
                        self.assertTrue(path.endswith(f"-{recording.header.process}"))


class Bounds(Runs):
    def test_kill_loses_nothing_that_was_written(self):
        """All objects are in the file that the program had told of. On several processors one may be stopped between a ticket's drawing
        and its event while the others go on, and then the order is known up to there."""
        for version in toolchains():
            for processors in (1, 4):
                with self.subTest(version=version, processors=processors):
                    path = self.path(f"{version}-{processors}")
                    run = self.start([recorded(version, "heaps"), "forever"], path, processors=processors)
                    while (said := int(run.stdout.readline())) < 100000:
                        pass
                    run.send_signal(signal.SIGKILL)
                    run.wait()
                    with Recording(path) as recording:
                        written = sum(self.nodes(group) for processor in recording.chunks for _, group in recording._groups(processor))
                        in_order = sum(self.nodes([event]) for event in Checker().through(recording.events()))
                        missing = recording.header.next_ticket - recording.missing
                    self.assertGreaterEqual(written, said)
                    if processors == 1:
                        self.assertGreaterEqual(in_order, said)
                        self.assertLessEqual(missing, 2)

    def nodes(self, events):
        """How many of them are objects as the program allocates them."""
        return sum(isinstance(event, Object) and event.kind == OBJECT and event.size == 32 and not event.flags & ~SAMPLED for event in events)

    def test_a_full_file(self):
        for version in toolchains():
            for processors in (1, 4):
                with self.subTest(version=version, processors=processors):
                    path = self.path(f"{version}-{processors}")
                    said = self.run_program([recorded(version, "heaps"), "forty"], path, processors=processors, size=1 << 20)
                    self.assertRegex(said, r"^counted \d+")
                    self.assertEqual(os.path.getsize(path), 1 << 20)
                    with Recording(path) as recording:
                        self.assertEqual(recording.header.state, 1)
                        checker = Checker().all(recording.events())
                        self.assertLess(recording.missing, recording.header.next_ticket)
                    self.assertGreater(checker.totals.mallocs, 10000)

    def test_a_file_system_without_room(self):
        for version in toolchains():
            with self.subTest(version=version):
                room = self.path("room")
                os.makedirs(room, exist_ok=True)
                script = 'mount -t tmpfs -o size=1m none "$1" && GOHEAP_RECORD="$1/one" GOHEAP_RECORD_SIZE=16777216 "$2" forty && cp "$1/one" "$3"'
                words = ["unshare", "-mr", "sh", "-c", script, "sh", room, recorded(version, "heaps"), self.path(version)]
                if not shutil.which("unshare") or subprocess.run(["unshare", "-mr", "true"], capture_output=True).returncode:
                    self.skipTest("no file system of its own can be mounted on this machine")
                said = self.run_program(words, None)
                self.assertRegex(said, r"^counted \d+")
                with Recording(self.path(version)) as recording:
                    self.assertEqual(recording.header.state, 2)
                    self.assertGreater(Checker().all(recording.events()).totals.mallocs, 10000)

    def test_a_limit_on_files(self):
        """A file that the system would end the program for is made smaller."""
        for version in toolchains():
            with self.subTest(version=version):
                path = self.path(version)
                words = ["sh", "-c", 'ulimit -f 2048; exec "$0" small', recorded(version, "heaps")]
                self.assertRegex(self.run_program(words, path), r"^counted \d+")
                self.assertLessEqual(os.path.getsize(path), 2048 * 1024)
                self.assertGreater(self.checked(path).totals.mallocs, 10000)

    def test_two_programs_on_one_file(self):
        for version in toolchains():
            with self.subTest(version=version):
                path = self.path(version)
                program = recorded(version, "heaps")
                first = self.start([program, "lines"], path)
                first.stdin.write("a\n")
                first.stdin.flush()
                self.assertEqual(first.stdout.readline(), "done a\n")
                self.assertRegex(self.run_program([program, "small"], path), r"^counted \d+")
                first.stdin.write("b\n")
                first.stdin.flush()
                self.assertEqual(first.stdout.readline(), "done b\n")
                first.stdin.close()
                self.assertEqual(first.wait(SECONDS), 0)
                with Recording(path) as recording:
                    self.assertEqual(recording.header.process, first.pid)
                self.assertEqual(self.checked(path).last.collections, 2)

    def test_where_nothing_can_be_recorded_the_program_runs(self):
        for version in toolchains():
            program = recorded(version, "heaps")
            for path in (self.path("no/such/folder"), "/" + "x" * 5000, self.folder):
                with self.subTest(version=version, path=path[:30]):
                    self.assertRegex(self.run_program([program, "tiny"], path), r"^counted \d+")
            self.assertEqual(os.listdir(self.folder), [])


class Asked(Runs):
    def test_from_a_mark_end(self):
        for version in toolchains():
            for processors in (1, 4):
                with self.subTest(version=version, processors=processors):
                    path = self.path(f"{version}-{processors}")
                    self.run_program([recorded(version, "heaps"), "given"], path, processors=processors, **{"from": 3})
                    with Recording(path) as recording:
                        events = list(recording.events())
                        self.assertEqual(recording.header.from_mark_end, 3)
                    self.assertIsInstance(events[0], Begin)
                    self.assertEqual((events[0].reason, events[0].mark_ends), (1, 2))
                    checker = Checker().all(events)
                    self.assertGreater(checker.compared, 4)

    def test_from_a_signal(self):
        for version in toolchains():
            with self.subTest(version=version):
                path = self.path(version)
                run = self.start([recorded(version, "heaps"), "lines"], path, **{"from": "signal"})
                for number, line in enumerate("abcdefgh"):
                    if number in (2, 4, 6):
                        run.send_signal(signal.SIGUSR1)
                    run.stdin.write(line + "\n")
                    run.stdin.flush()
                    self.assertEqual(run.stdout.readline(), f"done {line}\n")
                run.stdin.close()
                self.assertEqual(run.wait(SECONDS), 0)
                with Recording(path) as recording:
                    self.assertTrue(recording.header.by_signal)
                    events = list(recording.events())
                kinds = [type(event) for event in events if isinstance(event, (Begin, Stop))]
                self.assertEqual(kinds, [Begin, Stop, Begin])
                self.assertEqual([event.reason for event in events if isinstance(event, Begin)], [2, 2])
                self.assertEqual(Checker().all(events).last.collections, 8)

    def test_stacks_of_each_tenth_object(self):
        for version in toolchains():
            with self.subTest(version=version):
                path = self.path(version)
                self.run_program([recorded(version, "heaps"), "small"], path, processors=1, every=10)
                with Recording(path) as recording:
                    events = [event for event in recording.events() if isinstance(event, Object)]
                    self.assertEqual(recording.header.every, 10)
                asked = [event for event in events if not event.flags & NOT_ASKED]
                self.assertEqual(len(asked), len(events) // 10)
                self.assertTrue(all(event.stack for event in asked))
                self.assertFalse(any(event.stack for event in events if event.flags & NOT_ASKED))
                self.checked(path)


class Stacks(Runs):
    def test_stacks_are_those_that_the_runtime_gives(self):
        """The program prints, with the address of an object, the return addresses from its caller's caller on."""
        for version in toolchains():
            with self.subTest(version=version):
                path = self.path(version)
                said = self.run_program([recorded(version, "heaps"), "stacks"], path)
                with Recording(path) as recording:
                    stacks = recording.stacks()
                    placed = {event.address: event for event in recording.events() if isinstance(event, Object) and event.kind == OBJECT}
                lines = [[int(word, 16) for word in line.split()] for line in said.splitlines()]
                self.assertEqual(len(lines), 6)
                for address, *frames in lines:
                    told = stacks[placed[address].stack].frames
                    self.assertEqual(list(told[-len(frames) :]), frames)
                    self.assertEqual(len(told), len(frames) + 2)  # newobject, and the function that allocates

    def test_kinds_of_objects(self):
        for version in toolchains():
            with self.subTest(version=version):
                path = self.path(version)
                self.run_program([recorded(version, "heaps"), "tiny"], path)
                with Recording(path) as recording:
                    sizes = {}
                    for event in recording.events():
                        if isinstance(event, Object):
                            sizes.setdefault(event.kind, set()).add(event.size)
                self.assertEqual(sizes[EMPTY], {0})
                self.assertTrue(sizes[RIDER] >= {1, 2, 3, 4, 5, 6, 7, 8} and max(sizes[RIDER]) <= 15)
                self.assertTrue(sizes[OBJECT] >= {1, 2, 15, 64} and max(sizes[OBJECT]) <= 32768)
                self.assertGreater(min(sizes[LARGE]), 32768)


if __name__ == "__main__":
    unittest.main()
