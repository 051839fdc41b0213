"""Finds the first fault of a trace's text, in the words of `docs/trace-format.md`: its line, and the reason."""

import re
from typing import BinaryIO, Dict, Optional, Pattern, Tuple

from goheap_tools.formats.traces import REAL
from goheap_tools.tool import FIRST_LINES

Fault = Tuple[int, str]

MOST_IN_LINE = 120  # bytes, without the line feed
NUMBER = rb"(0|[1-9][0-9]{0,19})"


def form(text: str) -> Pattern[bytes]:
    """A line's form; N is a number."""
    return re.compile(text.encode().replace(b"N", NUMBER))


HEADER = form("heap N procs N rate N seed N goal N")
FORMS = {"a": form("a N N [sn] N"), "gc": form("gc N"), "m": form("m N N"), "end": form("end")}
REAL_FORMS = {**FORMS, "gc": form("gc N(?: all)?"), "d": form("d N N"), "f": form("f N")}


class Limits:
    """The greatest numbers of a version."""

    def __init__(self, version: int) -> None:
        is_real, has_large = version >= REAL, version >= 2
        self.header = (("chunks", 1, 4096 if has_large else 128), ("procs", 1, 64), ("rate", 0, 1 << 30), ("seed", 0, (1 << 64) - 1),
                       ("goal", 0, 2097152 if has_large else 65536))  # fmt: skip
        self.size, self.distance = 1 << 40, 1 << 40
        self.objects = 1 << 31 if is_real else 1_000_000
        self.mark_ends = 1_000_000 if is_real else 10_000
        self.marks = 1 << 40 if is_real else 20_000_000
        self.bytes = 1 << 40 if is_real else 1 << 26


class Draft:
    """What the lines so far say, as far as faults of later ones hang on it."""

    def __init__(self, version: int) -> None:
        self.version, self.limits = version, Limits(version)
        self.forms = REAL_FORMS if version >= REAL else FORMS
        self.procs = 0
        self.live = bytearray()  # by object, as of the last mark end's lines so far; what is allocated behind it lives
        self.mark_ends = self.marks = self.born = 0
        self.naming, self.high = "", -1  # which lines may name objects now, and the last object that they named
        self.ended = False

    def fault(self, line: bytes) -> Optional[str]:
        """Takes the next line in, or says why it is refused."""
        kind = line.split(b" ", 1)[0].decode("latin-1")
        found = self.forms[kind].fullmatch(line) if kind in self.forms and not self.ended else None
        if not found:
            return "malformed"
        numbers = list(map(int, found.groups()))
        if kind in "md":
            return self.name(kind, *numbers)
        self.end_naming()
        if kind == "a":
            return self.allocate(*numbers)
        if kind == "gc":
            return self.mark_end(numbers[0], line.endswith(b"all"))
        if kind == "f":
            return None if numbers[0] < self.procs else "limit proc"
        self.ended = True
        return None

    def end_naming(self) -> None:
        """No line names objects of this mark end any more: those behind the last marked one live no more."""
        if self.naming == "m":
            self.kill(self.born)
        self.naming = ""

    def kill(self, end: int) -> None:
        """The objects behind the last one that was named live no more, up to this one."""
        self.live[self.high + 1 : end] = bytes(max(end - self.high - 1, 0))

    def allocate(self, proc: int, size: int, stack: int) -> Optional[str]:
        for value, most, name in ((proc, self.procs - 1, "proc"), (size, self.limits.size, "size"), (stack, self.limits.objects - 1, "stack")):
            if value > most:
                return f"limit {name}"
        if len(self.live) >= self.limits.objects:
            return "limit objects"
        self.live.append(1)
        return None

    def mark_end(self, distance: int, is_of_all: bool) -> Optional[str]:
        if not 1 <= distance <= self.limits.distance:
            return "limit distance"
        if self.mark_ends >= self.limits.mark_ends:
            return "limit markends"
        self.mark_ends += 1
        self.naming, self.high, self.born = "d" if is_of_all else "m", -1, len(self.live)
        return None

    def name(self, kind: str, low: int, high: int) -> Optional[str]:
        """A line that names the marked or the dead."""
        if kind != self.naming or not self.high < low <= high:
            return "malformed"
        if high >= self.limits.objects:
            return "limit id"
        self.marks += high - low + 1
        if self.marks > self.limits.marks:
            return "limit marks"
        dead = self.live.find(0, low, high + 1)
        if dead >= 0 or high >= len(self.live):
            return f"object {dead if dead >= 0 else max(low, len(self.live))} is not live"
        if kind == "m":
            self.kill(low)
        else:
            self.live[low : high + 1] = bytes(high + 1 - low)
        self.high = high
        return None


def header_fault(draft: Draft, line: bytes) -> Optional[str]:
    """Takes the second line in, or says why it is refused."""
    found = HEADER.fullmatch(line)
    if not found:
        return "malformed"
    for (name, least, most), value in zip(draft.limits.header, map(int, found.groups())):
        if not least <= value <= most:
            return f"limit {name}"
    draft.procs = int(found[2])
    return None


def cut(line: bytes, left: int) -> Optional[str]:
    """Why a line ends before its line feed, or nothing. So many bytes are left of the limit."""
    if left < min(len(line), MOST_IN_LINE + 1):
        return "limit bytes"
    if not line.endswith(b"\n"):
        return "malformed" if len(line) > MOST_IN_LINE else "ends early"
    return None


def fault_of(file: BinaryIO, limit: Optional[int] = None) -> Optional[Fault]:
    """The first fault of a trace's text, or nothing. `limit` is the most bytes, by its version where none is given."""
    versions: Dict[bytes, int] = {line.encode(): version for line, version in FIRST_LINES.items()}
    draft, taken, number = Draft(1), 0, 0
    while True:
        line = file.readline(MOST_IN_LINE + 1)
        number += 1
        if draft.ended:
            return (number, "malformed") if line else None
        why = cut(line, (limit or draft.limits.bytes) - taken)
        taken += len(line)
        text = line[:-1]
        if why is None and number == 1:
            if text in versions:
                draft = Draft(versions[text])
            else:
                why = "malformed"
        elif why is None:
            why = header_fault(draft, text) if number == 2 else draft.fault(text)
        if why:
            return number, why
