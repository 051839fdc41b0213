"""The runs of `bench/stress.sh`: python3 bench/stress.py RUNS SEED."""
import os
import random
import subprocess
import sys
import tempfile
from typing import NamedTuple

HERE = os.path.dirname(os.path.abspath(__file__))
sys.path.insert(0, os.path.join(HERE, "..", "model"))

from living import Living, profiles_of  # noqa: E402
from run import CLASSES, TINY, Sampler, Tiny  # noqa: E402
from traces import made_trace  # noqa: E402

PROGRAM = os.path.join(HERE, "..", "crates", "goheap", "out", "goheap")
PROCS = (2, 3, 4, 8, 16, 64)
VERSIONS = (1, 2, 3, 4)
SHARING = 3  # the first version in which tiny objects share blocks
SECONDS = 60


def ran(words, given, processors):
    """What the program answers to these words on these processors alone; no answer where it does not end in time."""
    try:
        return subprocess.run(
            [PROGRAM, *words], input=given, capture_output=True, check=False, timeout=SECONDS,
            preexec_fn=lambda: os.sched_setaffinity(0, processors),
        )
    except subprocess.TimeoutExpired:
        return None


def wrong_with(found):
    """What is wrong with how a run ended, if anything is."""
    if found is None:
        return f"no end within {SECONDS} seconds"
    if found.returncode < 0:
        return f"ended by signal {-found.returncode}"
    return f"status {found.returncode}: {found.stderr.decode().strip()}" if found.returncode else None


def kept(trace, report):
    """Keeps a trace and what the program printed for it."""
    with tempfile.NamedTemporaryFile("wb", suffix=".trace", delete=False) as file:
        file.write(trace)
    with open(file.name + ".report", "wb") as other:
        other.write(report)
    return file.name


def slot_of(size):
    """The slot of an object of this size: that of its class, or whole pages."""
    return next((slot for slot, _ in CLASSES[1:] if size <= slot), -(-size // 8192) * 8192)


class Seat(NamedTuple):
    """Where an object stands: here each in a place of its own."""

    page: int


class Run:
    """What a trace and the printed answers tell: the objects that are sampled, the cycle of each object, and the last in which it lives. From
    version 3 on a tiny object that rides in the block of another counts as that one."""

    def __init__(self, trace, answers):
        lines = trace.decode().split("\n")
        head = lines[1].split()
        self.is_sharing = int(lines[0].split()[1]) >= SHARING
        self.samplers = [Sampler(int(head[5]), int(head[7]), proc) for proc in range(int(head[3]))]
        self.tiny = [Tiny() for _ in self.samplers]
        self.leads, self.sampled, self.cycles, self.seats, self.mark_ends = [], {}, [], {}, 0
        living, is_of_dead, named = Living(self.seats, self.cycles), False, None
        for line in lines[2:]:
            words = line.split()
            if named is not None and words[:1] not in (["m"], ["d"]):
                living.mark_end(self.mark_ends, is_of_dead, named)
                named = None
            if words[:1] == ["a"]:
                self.take(int(words[1]), int(words[2]), words[3] == "s", int(words[4]), answers[len(self.leads)])
            elif words[:1] == ["f"]:
                self.tiny[int(words[1])] = Tiny()
            elif words[:1] == ["gc"]:
                self.mark_ends, is_of_dead, named = self.mark_ends + 1, words[2:] == ["all"], []
                self.tiny = [Tiny() for _ in self.samplers]
            elif words[:1] in (["m"], ["d"]):
                named += range(int(words[1]), int(words[2]) + 1)
        living.end(self.mark_ends)
        self.lasts = living.lasts

    def take(self, proc, size, has_pointers, stack, answer):
        one, tiny = len(self.leads), self.tiny[proc]
        is_tiny = self.is_sharing and 0 < size < TINY and not has_pointers
        is_rider = is_tiny and tiny.ride(size) is not None
        self.leads.append(tiny.lead if is_rider else one)
        self.cycles.append(self.mark_ends)
        if is_rider or not answer.startswith(b"0x"):
            self.seats[one] = ("rides", tiny.lead) if is_rider else ("none", None)
            return
        self.seats[one] = "at", Seat(one), 0
        if is_tiny:
            tiny.led(one, int(answer, 16), size)
        slot = slot_of(TINY if is_tiny else size)
        if self.samplers[proc].sample(slot):
            self.sampled[one] = (stack, slot)

    def sums(self):
        """The allocations and the frees of all buckets as of each mark end, from number 0 on, where nothing is published yet."""
        profiles = profiles_of(self.sampled, self.cycles, self.lasts, self.mark_ends)
        return [(0, 0), *((sum(a for a, _ in profile.values()), sum(f for _, f in profile.values())) for profile in profiles)]

    def riders(self):
        return sum(one != lead for one, lead in enumerate(self.leads))


def run_of(trace, report):
    return Run(trace, [line.split()[2] for line in report.split(b"\n") if line.startswith(b"o ")])


def wrong_lines(trace, report, lines, readers):
    """What is wrong with the lines of what watchers saw, if anything is."""
    sums = run_of(trace, report).sums()
    seen = [[] for _ in range(readers)]
    last = 0
    for line in lines.decode().split("\n")[:-1]:
        _, watcher, k, allocs, frees = line.split()
        if not last <= int(watcher) < readers:
            return f"watcher {watcher} behind {last}"
        last = int(watcher)
        if int(k) >= len(sums) or sums[int(k)] != (int(allocs), int(frees)):
            return f"other sums: {line}"
        seen[last].append(int(k))
    for watcher, numbers in enumerate(seen):
        if numbers != sorted(set(numbers)) or numbers[-1:] != [len(sums) - 1]:
            return f"watcher {watcher} saw {numbers}"
    return None


def watched(runs, rng, places, everywhere):
    """Runs traces of many mark ends before 1 to 4 watchers. Whether all is as it should be."""
    sights = early = 0
    for number in range(runs):
        trace = made_trace(rng, (1, 1, 2), PROCS, ends=rng.choice([1, 20, 100]), version=rng.choice(VERSIONS)).encode()
        readers = 1 + number % 4
        found = ran(["watch", str(readers)], trace, places[number % 3])
        wrong = wrong_with(found)
        if not wrong:
            report, end, lines = found.stdout.partition(b"end\n")
            judged = ran(["check"], trace + report + end, everywhere)
            wrong = wrong_with(judged) or wrong_lines(trace, report, lines, readers)
        if wrong:
            name = kept(trace, found.stdout if found else b"")
            print(f"bench/stress.sh: watched run {number}, kept in {name}, watch {readers}: {wrong}", file=sys.stderr)
            return False
        count = lines.count(b"\n")
        sights += count
        early += count > readers
    print(f"{runs} runs before 1 to 4 watchers, {early} of them with more than the last sight: each of {sights} sights has the sums of its mark end")
    return True


def main():
    runs, rng = int(sys.argv[1]), random.Random(int(sys.argv[2]))
    everywhere = sorted(os.sched_getaffinity(0))
    places = [everywhere[:1], everywhere[:2], everywhere]
    counts = {"o": 0, "j": 0, "s": 0}
    misses = several = traces = cuts = riders = 0
    trace, words, before = b"", [], b""
    for number in range(runs):
        # Each trace is run twice, so that its reports can be compared.
        if number % 2 == 0:
            trace = made_trace(rng, (1, 1, 2), PROCS, version=rng.choice(VERSIONS)).encode()
            words = ["run", f"--background={rng.randrange(5)}"] + rng.choice([[], ["--each"]])
            traces += 1
        found = ran(words, trace, places[number // 2 % 3])
        wrong = wrong_with(found)
        if not wrong:
            judged = ran(["check"], trace + found.stdout, everywhere)
            wrong = wrong_with(judged)
        if wrong:
            name = kept(trace, found.stdout if found else b"")
            print(f"bench/stress.sh: run {number}, kept in {name}, {' '.join(words)}: {wrong}", file=sys.stderr)
            return 1
        for line in found.stdout.split(b"\n"):
            kind = line[:1].decode()
            if kind in counts:
                counts[kind] += 1
            misses += line.startswith(b"o ") and b" miss " in line
            cuts += line.startswith(b"j ") and b" cut " in line
        riders += run_of(trace, found.stdout).riders()
        several += number % 2 == 1 and found.stdout != before
        before = found.stdout
    print(f"{runs} runs of {traces} traces, a third each on 1, on {min(2, len(everywhere))} and on {len(everywhere)} processors:")
    print(f"{counts['o']} objects, {misses} of them missed and {riders} in the blocks of others, {counts['j']} lines of the journal, {cuts} of them cuts, {counts['s']} sweeps")
    print(f"each report is sound, no run hung or ended by a signal; {several} of the traces gave two reports in two runs")
    return 0 if watched(runs // 10, rng, places, everywhere) else 1


sys.exit(main())
