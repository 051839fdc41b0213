#!/usr/bin/env bash
# Processor minutes of the gate, crate by crate: of its proof, of the proof of its tests, and of the wrong bodies that must
# be refused, as the table of docs/gate.md has them. It runs `rt ci` with the words that it is given and looks twice a second
# at what the provers below it have used, so a figure is right to about half a second a process. Only what the run does
# counts: what an earlier run on this machine has passed is kept and costs nothing, so the whole table comes from a new
# machine, or from `bench/gate.sh --anew`. The log of the run goes to the file that LOG names (default: /dev/null). It ends
# with the status of `rt ci`.
set -u
cd "$(dirname "$(readlink -f "$0")")/.."
exec python3 - "${LOG:-/dev/null}" "$@" <<'PYTHON'
import os
import subprocess
import sys
import time

log, *words = sys.argv[1:]
ticks = os.sysconf("SC_CLK_TCK")
KINDS = ("proof", "tests", "edits")


def processes():
    """The parent, the start and the ticks of each process."""
    found = {}
    for name in filter(str.isdigit, os.listdir("/proc")):
        try:
            with open(f"/proc/{name}/stat") as file:
                fields = file.read().rpartition(")")[2].split()
        except OSError:
            continue
        found[int(name)] = (int(fields[1]), fields[19], int(fields[11]) + int(fields[12]))
    return found


def words_of(pid):
    try:
        with open(f"/proc/{pid}/cmdline", "rb") as file:
            return file.read().decode(errors="replace").split("\0")
    except OSError:
        return []


def role(pid, words):
    """The crate that a prover is at, and what for; nothing for another process. A wrong body is tried in a folder of its own."""
    if "--crate-name" not in words or os.path.basename(words[0]) != "rattle":
        return None
    crate = words[words.index("--crate-name") + 1]
    try:
        folder = os.readlink(f"/proc/{pid}/cwd")
    except OSError:
        folder = ""
    if "rt-edit" in folder:
        return crate, "edits"
    return crate, "tests" if "--test" in words else "proof"


def is_below(pid, root, found):
    while pid in found:
        if pid == root:
            return True
        pid = found[pid][0]
    return False


def watch(run):
    """The ticks of each prover below the run, by its crate and what it was at."""
    used, roles = {}, {}
    while run.poll() is None:
        found = processes()
        for pid, (_, start, spent) in found.items():
            key = (pid, start)
            if key not in roles and is_below(pid, run.pid, found):
                at = words_of(pid)
                if at[:1] and os.path.basename(at[0]) == "rattle":
                    roles[key] = role(pid, at)
            if roles.get(key):
                used[key] = spent
        time.sleep(0.5)
    return used, roles


def line(name, minutes, places):
    """A line of the table; a dash where nothing ran."""
    cells = [f"{it:.{places}f}" if it else "–" for it in [*minutes, sum(minutes)]]
    return f"| {name} | {' | '.join(cells)} |"


def main():
    began = time.monotonic()
    with open(log, "w") as out:
        run = subprocess.Popen(["rt", "ci", *words], stdout=out, stderr=subprocess.STDOUT)
        used, roles = watch(run)
    table = {}
    for key, spent in used.items():
        crate, kind = roles[key]
        row = table.setdefault(crate, dict.fromkeys(KINDS, 0.0))
        row[kind] += spent / ticks / 60
    print("| crate | proof | tests | wrong bodies | all |")
    print("|---|---:|---:|---:|---:|")
    for crate, row in sorted(table.items(), key=lambda it: -sum(it[1].values())):
        print(line(f"`{crate}`", [row[kind] for kind in KINDS], 1))
    print(line("together", [sum(row[kind] for row in table.values()) for kind in KINDS], 0))
    print(f"wall time: {(time.monotonic() - began) / 60:.1f} minutes on {len(os.sched_getaffinity(0))} processors; rt ci ended with {run.returncode}")
    return run.returncode


sys.exit(main())
PYTHON
