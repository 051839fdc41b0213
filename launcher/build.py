#!/usr/bin/env python3
"""Proves and builds the program, and says how far it is. Called by `goheap` alone.

Usage: build.py CRATE...                        proves these crates, the program first, as many side by side as there are processors, and builds it
       build.py --minutes PROGRAM [PROCESSORS]  says how many minutes that takes here, or on so many processors, if nothing is kept
       build.py --chain PROGRAM                 prints the longest chain of crates up to it, each with the minutes of its proof

It works on a copy of the crates that the program stands on, under the user's folder of caches, so that no other crate is proved, and that
work in the checkout goes on meanwhile. What was proved there stays, and a later build proves what has changed and what stands on it.
"""
import fcntl
import hashlib
import os
import re
import shutil
import subprocess
import sys
import threading
import time

from terminal import Line, end_at_signals, started

ROOT = os.path.dirname(os.path.dirname(os.path.abspath(__file__)))
PROGRAM = f"{ROOT}/crates/goheap/out/goheap"
# What a crate is proved from, and what the program is run on.
PARTS = ("src", "specs", "proofs")
# The memory that a check takes, in bytes, at most in nearly all cases.
MEMORY = 4 << 30


def cache_folder():
    """The folder, below the user's one of caches, of what is kept for this checkout."""
    caches = os.environ.get("XDG_CACHE_HOME") or os.path.expanduser("~/.cache")
    return f"{caches}/goheap/{hashlib.sha256(ROOT.encode()).hexdigest()[:16]}"


def lanes():
    """How many crates to prove side by side: one a processor, and as many as the memory holds."""
    held = os.sysconf("SC_PAGE_SIZE") * os.sysconf("SC_PHYS_PAGES")
    return max(1, min(len(os.sched_getaffinity(0)), held // MEMORY))


def lines_of_crates():
    """The lines of crates.txt, by the names of their crates."""
    with open(f"{ROOT}/crates.txt", encoding="utf-8") as file:
        found = [(re.match(r"([a-z0-9_]+)[^:]*:(.*)", line), line) for line in file]
    return {it[1]: (it[2].split(), line) for it, line in found if it}


def minutes_of_proofs():
    """The processor minutes of each crate's proof, by docs/gate.md."""
    with open(f"{ROOT}/docs/gate.md", encoding="utf-8") as file:
        return {it[1]: float(it[2]) for it in map(re.compile(r"\| `(\w+)` \| ([0-9.]+) \|").match, file) if it}


def crates_below(program):
    """The program and the crates that it stands on, by the lines of crates.txt; the toolchain's own are none of them."""
    lines, found = lines_of_crates(), [program]
    for name in found:
        found += [it for it in lines[name][0] if it in lines and it not in found]
    return found


class Work:
    """What is still to be proved, in processor minutes."""

    def __init__(self, names, side_by_side):
        lines, costs = lines_of_crates(), minutes_of_proofs()
        self.lanes = side_by_side
        self.costs = {name: costs.get(name, 0.5) for name in names}
        self.below = {name: [it for it in lines[name][0] if it in self.costs] for name in names}
        self.whole, self.done, self.started = sum(self.costs.values()), set(), time.monotonic()

    def chain(self, name, known):
        """The minutes of the longest chain of crates that ends with this one."""
        if name not in known:
            below = max([self.chain(it, known) for it in self.below[name]], default=0)
            known[name] = below + (name not in self.done) * self.costs[name]
        return known[name]

    def minutes(self):
        """The minutes until all is proved: what is left over the processors, and no less than its longest chain, at the pace so far."""
        known, passed = {}, (time.monotonic() - self.started) / 60
        done = sum(self.costs[it] for it in self.done)
        left = max((self.whole - done) / self.lanes, max(self.chain(it, known) for it in self.costs))
        # (as docs/gate.md has it until some crates are through)
        return left * (passed * self.lanes + 8) / (done + 8)

    def line(self):
        return f"goheap: proved {len(self.done)} of {len(self.costs)} crates, about {round(self.minutes()) or 1} minutes left"


def show(work, ended):
    """Says how far the work is, at once and until it has ended: on one line of a terminal every second, otherwise once a minute."""
    with Line() as line:
        while True:
            line.show(work.line())
            if not line.is_shown:
                print(work.line(), file=sys.stderr, flush=True)
            if ended.wait(1 if line.is_shown else 60):
                return


def copy_crates(names, tree):
    """Makes the copy have these crates alone, as the checkout has them now."""
    lines = lines_of_crates()
    os.makedirs(f"{tree}/crates", exist_ok=True)
    for name in set(os.listdir(f"{tree}/crates")) - set(names):
        shutil.rmtree(f"{tree}/crates/{name}")
    for name in names:
        for part in PARTS:
            shutil.rmtree(f"{tree}/crates/{name}/{part}", ignore_errors=True)
            if os.path.isdir(f"{ROOT}/crates/{name}/{part}"):
                shutil.copytree(f"{ROOT}/crates/{name}/{part}", f"{tree}/crates/{name}/{part}")
    with open(f"{tree}/crates.txt", "w", encoding="utf-8") as file:
        file.writelines(lines[name][1] for name in names)
    shutil.copyfile(f"{ROOT}/HANDLES", f"{tree}/HANDLES")


def prove(work, tree):
    """Proves the crates of the copy, lowest first and side by side, and returns whether all passed."""
    said, words = [], ["rt", "all", "check", "--jobs", str(work.lanes)]
    how = {"stdout": subprocess.PIPE, "stderr": subprocess.STDOUT, "stdin": subprocess.DEVNULL, "text": True, "errors": "replace"}
    with started(words, cwd=f"{tree}/crates", **how) as run:
        for line in run.stdout:
            said.append(line)
            if line.startswith("== ") and line[3:].strip() in work.costs:
                work.done.add(line[3:].strip())
    with open(f"{tree}/build.log", "w", encoding="utf-8") as file:
        file.writelines(said)
    if run.returncode:
        print("".join(said[-40:]) + f"goheap: a proof failed; {tree}/build.log has all that was said", file=sys.stderr)
    return not run.returncode


def prove_and_tell(names, tree):
    """Proves the crates, as this checkout has them, and tells meanwhile how far that is."""
    work, ended = Work(names, lanes()), threading.Event()
    telling = threading.Thread(target=show, args=(work, ended), daemon=True)
    try:
        telling.start()
        copy_crates(names, tree)
        return prove(work, tree)
    finally:
        ended.set()
        if telling.ident:
            telling.join()


def link(tree):
    """Builds the program of what is proved, and returns whether that went well. The build runs it once, on a stored trace."""
    with open(f"{ROOT}/examples/one-object.trace", "rb") as trace, open(f"{tree}/build.log", "ab") as log:
        with started(["rt", "run", "--", "run"], cwd=f"{tree}/crates/goheap", stdin=trace, stdout=log, stderr=log) as run:
            run.wait()
    if run.returncode:
        print(f"goheap: the build failed; {tree}/build.log has what was said", file=sys.stderr)
    return not run.returncode


def place(tree, begun):
    """Puts the program into the checkout. What was edited since the build began is newer than the program."""
    os.makedirs(os.path.dirname(PROGRAM), exist_ok=True)
    shutil.copy2(f"{tree}/crates/goheap/out/goheap", f"{PROGRAM}.new")
    os.utime(f"{PROGRAM}.new", (begun, begun))
    os.replace(f"{PROGRAM}.new", PROGRAM)


def take_lock(lock):
    """Waits for another build of this checkout to end."""
    try:
        fcntl.flock(lock, fcntl.LOCK_EX | fcntl.LOCK_NB)
    except BlockingIOError:
        print("goheap: another build of this checkout is at work; waiting for it", file=sys.stderr, flush=True)
        fcntl.flock(lock, fcntl.LOCK_EX)


def build(names):
    """Proves the crates, builds the program, and puts it into the checkout. Returns the status to end with."""
    tree = cache_folder()
    os.makedirs(tree, exist_ok=True)
    with open(f"{tree}/lock", "w", encoding="utf-8") as lock:
        take_lock(lock)
        begun = time.time()
        if not prove_and_tell(names, tree) or not link(tree):
            return 1
        place(tree, begun)
    print(f"goheap: proved and built, in {(time.time() - begun) / 60:.1f} minutes", file=sys.stderr)
    return 0


def main(words):
    if words[0] == "--minutes":
        print(round(Work(crates_below(words[1]), int(words[2]) if words[2:] else lanes()).minutes()))
        return 0
    if words[0] == "--chain":
        work, known, name = Work(crates_below(words[1]), 1), {}, words[1]
        while name:
            print(f"{name} {work.costs[name]}")
            name = max(work.below[name], key=lambda it: work.chain(it, known), default=None)
        return 0
    return build(words)


if __name__ == "__main__":
    end_at_signals()
    try:
        sys.exit(main(sys.argv[1:]))
    except SystemExit as ended:
        if isinstance(ended.code, int) and ended.code > 128:
            print("goheap: interrupted; what was proved is kept, and the next build goes on there", file=sys.stderr)
        raise
    except OSError as error:
        print(f"goheap: cannot build: {error}", file=sys.stderr)
        sys.exit(1)
