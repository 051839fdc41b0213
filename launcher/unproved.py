#!/usr/bin/env python3
"""Answers the words without the proved program: has the toolchain compile the program without its proofs, and runs that. Called by
`goheap` alone, with the words of the program, and with the standard input of the call as descriptor 3.

The toolchain keeps nothing of such a build, ends a run at a limit of time, and gives its answer when it has ended, if that is not too long.
So this refuses at once what cannot be answered within these limits, says what will happen, and shows the seconds.
"""
import itertools
import os
import re
import subprocess
import sys
import tempfile
import threading
import time

from build import ROOT, Work, cache_folder, crates_below, lanes
from terminal import Line, end_at_signals, started

# How long a run may take here, in seconds. `demo 1 100000` ran for 15 to 19, so that the toolchain's own limit of a minute would end the runs
# of some hundred thousand objects.
SECONDS = 600
# What the toolchain hands on of an answer, and what it takes of standard input, in bytes.
ANSWER, INPUT = 1 << 20, 64 << 20
# The descriptor of what is to be read.
GIVEN = 3
# The seconds that compiling takes on two processors, for the first call here; each later one is told those of the one before.
COMPILING = 80
# The bytes that `gen` writes for each object, as measured: 14.02 to 14.03 for seeds that were tried.
GEN_BYTES = 13.9
# What the program itself says on standard error begins so; the other lines there are the toolchain's.
OWN_WORDS = (b"goheap: ", b"usage: goheap ")
# The words of the program, each with the form of those behind it, and the ones that read a trace.
NUMBER = "(?:0|[1-9][0-9]{0,19})"
FORMS = {
    "run": r"(?: --each| --background[= ][0-4])*",
    "watch": r" [1-4]",
    "check": r"(?: --pieces=(?:[1-9]|[1-5][0-9]|6[0-4]))?",
    "heap": "",
    "classes": "",
    "gen": f" {NUMBER} {NUMBER}",
    "demo": f" {NUMBER} {NUMBER}",
}
READERS = ("run", "watch", "check", "heap")
# The program's statuses, and those of the toolchain where the program did not end by itself.
UNKNOWN_WORDS, READ_FAULT, WRITE_FAULT = 2, 5, 6
NOT_COMPILED, FAULT, NO_ANSWER = 1, 4, 6
WAY_OUT = "./goheap --build makes the program, which can"


class Refused(Exception):
    """There is no answer. The text says why, and `status` is the one to end with."""

    def __init__(self, text: str, status: int = 1):
        super().__init__(text)
        self.status = status


def usage() -> str:
    """What the program says to other words, from its source."""
    try:
        with open(f"{ROOT}/crates/commands/src/refusals.rt", encoding="utf-8") as file:
            return re.search(r"usage: goheap [^\"\\]*", file.read())[0]
    except (OSError, TypeError):
        return "usage: goheap WORD [OPTIONS] [FILES]; `goheap help` lists the words"


def refuse_other_words(words: list[str]) -> None:
    """Refuses what the program would: that wants no build."""
    fits = words[0] in FORMS and re.fullmatch(FORMS[words[0]], "".join(f" {it}" for it in words[1:]))
    if fits and words[0] in ("gen", "demo"):
        fits = int(words[1]) < 1 << 64 and 1 <= int(words[2]) <= 1000000
    if not fits or any(sum(it.startswith(option) for it in words) > 1 for option in ("--each", "--background")):
        raise Refused(usage(), UNKNOWN_WORDS)


def refuse_length(least: float) -> None:
    """Refuses what has an answer of at least so many bytes, where that is too long."""
    if least > ANSWER:
        raise Refused(f"goheap: the answer has more than {ANSWER >> 20} MiB, and a build without proofs hands on no more; {WAY_OUT}")


def least_answer(trace) -> int:
    """The bytes that the answer to a trace has at least: for each object a line with `zero`, or with an address, or with a miss and a line of
    the journal, which is no shorter."""
    length = objects = 0
    for line in trace:
        if line.startswith(b"a "):
            length += len(str(objects)) + (8 if line.split(b" ", 3)[2:3] == [b"0"] else 16)
            objects += 1
    return length


def take_input(word: str, copy) -> None:
    """Copies what is to be read, and refuses what cannot be answered."""
    try:
        while part := os.read(GIVEN, 1 << 20):
            copy.write(part)
            if copy.tell() > INPUT:
                raise Refused(f"goheap: the input has more than {INPUT >> 20} MiB, and a build without proofs gets no more; {WAY_OUT}")
    except OSError:
        raise Refused("goheap: read fault", READ_FAULT) from None
    copy.seek(0)
    if word in ("run", "watch"):
        refuse_length(least_answer(copy))
    copy.seek(0)


class Compiling:
    """How many seconds the toolchain takes, by the last time here."""

    def __init__(self):
        self.file = f"{cache_folder()}/compiling"
        try:
            with open(self.file, encoding="utf-8") as file:
                self.seconds, self.by = int(file.read()), "as the last time"
        except (OSError, ValueError):
            self.seconds, self.by = COMPILING, "on two processors"

    def tell(self) -> None:
        minutes = round(Work(crates_below("goheap"), lanes()).minutes())
        lines = (
            f"not built yet: compiling without proofs, about {self.seconds} s ({self.by}), nearly all of them the compiler's, and at each call anew",
            f"such an answer has at most {ANSWER >> 20} MiB, and its run {SECONDS} s",
            f"./goheap --build proves and builds the program once, from nothing in about {minutes} minutes on {lanes()} processors",
        )
        print(*(f"goheap: {line}" for line in lines), sep="\n", file=sys.stderr, flush=True)

    def keep(self, seconds: float) -> None:
        try:
            os.makedirs(cache_folder(), exist_ok=True)
            with open(self.file, "w", encoding="utf-8") as file:
                file.write(str(round(seconds)))
        except OSError:
            pass


def run_toolchain(words: list[str], given, answer, seconds: int) -> tuple[list[bytes], int]:
    """Has the toolchain compile and run the program, and shows how far that is of so many seconds. Returns the lines of standard error, and the
    toolchain's status."""
    command, lines, begun = ["rt", "try", "--seconds", str(SECONDS), "--", *words], [], time.monotonic()
    how = {"cwd": f"{ROOT}/crates/goheap", "stdin": given, "stdout": answer, "stderr": subprocess.PIPE}
    with Line() as line, started(command, **how) as run:
        reading = threading.Thread(target=lambda: lines.extend(run.stderr), daemon=True)
        reading.start()
        for turned in itertools.cycle("|/-\\"):
            passed = round(time.monotonic() - begun)
            line.show(f"goheap: {turned} compiling without proofs: {passed} " + (f"of about {seconds} s" if passed < seconds else "s"))
            reading.join(0.25)
            if not reading.is_alive():
                break
    return lines, run.returncode


def status_of(lines: list[bytes], returned: int) -> int:
    """The status of the program, by the toolchain's last line; why there is none otherwise."""
    ended = re.match(rb"run=ended status=([0-9]+) ", lines[-1]) if lines else None
    if ended:
        return int(ended[1])
    if returned == NO_ANSWER:
        raise Refused(f"goheap: no answer within {SECONDS} s and {ANSWER >> 20} MiB, the limits of a build without proofs; {WAY_OUT}")
    log = f"{cache_folder()}/compiling.log"
    os.makedirs(cache_folder(), exist_ok=True)
    with open(log, "wb") as file:
        file.writelines(lines)
    why = {NOT_COMPILED: "the sources do not compile", FAULT: "the program came to a fault"}.get(returned, "the toolchain failed")
    raise Refused(f"goheap: {why}; {log} has what the toolchain said")


def hand_on(answer) -> int:
    """Writes the answer to standard output. Returns the status of a write that failed, or 0; whoever reads a pipe has ended it."""
    try:
        answer.seek(0)
        while part := answer.read(1 << 20):
            while part:
                part = part[os.write(1, part) :]
    except BrokenPipeError:
        return WRITE_FAULT
    except OSError:
        print("goheap: write fault", file=sys.stderr)
        return WRITE_FAULT
    return 0


def answer_words(words: list[str]) -> int:
    """Answers, and returns the status to end with."""
    refuse_other_words(words)
    if words[0] == "gen":
        refuse_length(int(words[2]) * GEN_BYTES)
    with tempfile.TemporaryFile() as given, tempfile.TemporaryFile() as answer:
        if words[0] in READERS:
            take_input(words[0], given)
        compiling, begun = Compiling(), time.monotonic()
        compiling.tell()
        lines, returned = run_toolchain(words, given, answer, compiling.seconds)
        status = status_of(lines, returned)
        compiling.keep(time.monotonic() - begun)
        sys.stderr.buffer.writelines(line for line in lines if line.startswith(OWN_WORDS))
        sys.stderr.flush()
        return hand_on(answer) or status


def main(words: list[str]) -> int:
    end_at_signals()
    try:
        return answer_words(words)
    except Refused as refused:
        print(refused, file=sys.stderr)
        return refused.status
    except OSError as error:
        print(f"goheap: cannot compile: {error}", file=sys.stderr)
        return 1


if __name__ == "__main__":
    sys.exit(main(sys.argv[1:]))
