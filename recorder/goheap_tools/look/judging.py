"""Has traces run and reports judged: by goheap where it is built and reads them, and else by what stands beside it in Python, which says so."""

import functools
import os
import subprocess
import sys
from typing import Any, Dict, List

from goheap_tools.cli import explain
from goheap_tools.formats.frames import shown_frames
from goheap_tools.look.gather import Recording
from goheap_tools.tool import FIRST_LINES, Output, Unusable

TOP = os.path.dirname(os.path.dirname(os.path.dirname(os.path.dirname(os.path.abspath(__file__)))))
BUILT = os.path.join(TOP, "crates", "goheap", "out", "goheap")
LAUNCHER, MODEL = os.path.join(TOP, "goheap"), os.path.join(TOP, "model", "run.py")
# Sentences of a judge that are shown.
MOST = 200
# The smallest trace of a version, and its report behind it.
LEAST = "goheap {version}\nheap 1 procs 1 rate 1 seed 1 goal 512\nend\nend\n"


def is_built() -> bool:
    """Whether the proved program stands."""
    return os.access(BUILT, os.X_OK)


@functools.cache
def reads(version: int) -> bool:
    """Whether the proved program stands, and reads traces of this version."""
    if not is_built():
        return False
    ran = subprocess.run([LAUNCHER, "check"], input=LEAST.format(version=version), capture_output=True, text=True)
    return ran.returncode == 0 and ran.stdout == "check ok\n"


def version_of(trace: str) -> int:
    """The version of a trace, by its first line; 1 where that is none."""
    with open(trace, "rb") as file:
        word = file.readline(20).decode(errors="replace").strip()
    return FIRST_LINES.get(word, 1)


def runner(version: int = 1) -> List[str]:
    """The command that makes a report of a trace of this version."""
    return [LAUNCHER, "run", "--each"] if reads(version) else [sys.executable, MODEL, "--each"]


def by_whom(version: int = 1) -> str:
    """Who runs traces of this version here."""
    if reads(version):
        return "goheap"
    return "the plain model, since goheap " + (f"does not read version {version} as it is built" if is_built() else "is not built (./goheap --build)")


def run_trace(trace: str, report: str) -> None:
    """Makes the report of a trace."""
    with open(trace, "rb") as given, Output(report, binary=True) as out:
        with subprocess.Popen(runner(version_of(trace)), stdin=given, stdout=subprocess.PIPE, stderr=subprocess.PIPE) as ran:
            while ran.stdout and (piece := ran.stdout.read(1 << 20)):
                out.write(piece)
            said = ran.stderr.read().decode(errors="replace").strip() if ran.stderr else ""
            if ran.wait():
                raise Unusable(f"{trace}: it was not run: {said.splitlines()[-1] if said else f'status {ran.returncode}'}")


def checked(trace: str, report: str) -> Dict[str, Any]:
    """What `goheap check` says of the report."""
    with subprocess.Popen([LAUNCHER, "check"], stdin=subprocess.PIPE, stdout=subprocess.PIPE, stderr=subprocess.STDOUT) as ran:
        try:
            for path in (trace, report):
                with open(path, "rb") as file:
                    while ran.stdin and (piece := file.read(1 << 20)):
                        ran.stdin.write(piece)
            if ran.stdin:
                ran.stdin.close()
        except BrokenPipeError:
            pass  # it refused the beginning already, and says why
        lines = ran.stdout.read().decode(errors="replace").splitlines() if ran.stdout else []
    verdict = lines[-1] if lines else f"status {ran.returncode}"
    return {"by": "As `goheap check` says, the proved judge.", "verdict": verdict, "lines": lines[:-1], "sound": ran.returncode == 0 and verdict == "check ok"}


def why_not(recording: Recording) -> str:
    """Why the proved judge does not say it."""
    return "goheap is not built here" if not is_built() else f"the goheap that is built does not read traces of version {recording.trace.version}"


def explained(recording: Recording, report: str) -> Dict[str, Any]:
    """What `explain` says of the report: the same rules, tried in Python."""
    with open(report, "rb") as file:
        data = file.read()
    frames = {number: shown_frames(one) for number, one in recording.stacks.frames.items()}
    told = list(explain.explanation(recording.trace, data, frames, os.path.basename(report)))
    sound = told == [explain.sound(recording.trace)]
    return {"by": f"As `recorder/explain` says, which tries the rules of `goheap check` by itself in Python; {why_not(recording)}.", "verdict": told[0], "lines": told[1:MOST], "sound": sound}


def judged(recording: Recording, trace: str, report: str) -> Dict[str, Any]:
    """The words of the judge on the report. A refused one has what `explain` says of it as well."""
    if not reads(recording.trace.version):
        return explained(recording, report)
    found = checked(trace, report)
    if not found["sound"]:
        why = explained(recording, report)
        found["lines"] += ["", "In the words of `recorder/explain`:", why["verdict"], *why["lines"]]
    return found
