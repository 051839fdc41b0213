"""Reads a trace of goheap into columns: of a million objects a few bytes each are kept. What a trace must keep to is for `goheap` to say."""

import itertools
import re
from array import array
from bisect import bisect_right
from collections.abc import Sequence
from typing import Any, BinaryIO, Dict, Iterable, Iterator, List, NamedTuple, Optional, Tuple

from goheap_tools import tool
from goheap_tools.formats.lines import is_kind, joined, opened, runs
from goheap_tools.tool import Unusable

# The first version of real runs: with flushes, mark ends that name the dead, and journals in which others than objects have pages.
REAL = 4

HEADER = re.compile(rb"heap ([0-9]{1,4}) procs ([0-9]{1,2}) rate ([0-9]{1,20}) seed ([0-9]{1,20}) goal ([0-9]{1,20})\n")
NUMBERS = ("chunks", "procs", "rate", "seed", "goal")
# The form of a run of lines by its first letter, within the limits of the formats.
FORMS = {
    "a": rb"(?:a [0-9]{1,2} [0-9]{1,13} [sn] [0-9]{1,6}\n)+",
    "g": rb"gc [0-9]{1,13}\n",
    "m": rb"(?:m [0-9]{1,6} [0-9]{1,6}\n)+",
    "e": rb"end\n",
}
REAL_FORMS = {
    "a": rb"(?:a [0-9]{1,2} [0-9]{1,13} [sn] [0-9]{1,10}\n)+",
    "g": rb"gc [0-9]{1,13}(?: all)?\n",
    "m": rb"(?:m [0-9]{1,10} [0-9]{1,10}\n)+",
    "d": rb"(?:d [0-9]{1,10} [0-9]{1,10}\n)+",
    "f": rb"(?:f [0-9]{1,2}\n)+",
    "e": rb"end\n",
}
# The letters of `s` and `n` as whether there are pointers.
POINTERS = bytes.maketrans(b"sn", b"\1\0")


class Event(NamedTuple):
    """An object as it is allocated."""

    cycle: int
    proc: int
    size: int
    has_pointers: bool
    stack: int


class Flush(NamedTuple):
    """The cache of a processor is emptied, before the object of this number."""

    before: int
    proc: int


class Events(Sequence):
    """The objects of a trace by their numbers."""

    def __init__(self, trace: 'Trace') -> None:
        self.trace = trace

    def __len__(self) -> int:
        return len(self.trace.sizes)

    def __getitem__(self, one: Any) -> Any:
        trace = self.trace
        one = range(len(trace.sizes))[one]
        return Event(bisect_right(trace.born, one), trace.procs[one], trace.sizes[one], bool(trace.pointers[one]), trace.stacks[one])

    def __iter__(self) -> Iterator[Event]:
        trace = self.trace
        return map(Event._make, zip(trace.cycles(), trace.procs, trace.sizes, map(bool, trace.pointers), trace.stacks))


class Trace:
    """Of each object its processor, size, stack and whether it has pointers; of each mark end how many objects stand before it, and the ranges
    that its lines name: the marked, or, where `names_dead`, those that live no more; and the flushes."""

    def __init__(self, name: str = "trace", version: int = 1, header: Optional[Dict[str, int]] = None) -> None:
        self.name, self.version, self.header = name, version, header or {}
        self.procs, self.sizes, self.pointers, self.stacks = array("B"), array("Q"), bytearray(), array("I")
        self.born, self.names_dead, self.starts = array("I"), bytearray(), array("I")
        self.lows, self.highs = array("I"), array("I")
        self.flushes: List[Flush] = []
        self.known_cycles: Optional[array] = None
        self.known_lasts: Optional[array] = None

    @property
    def events(self) -> Events:
        return Events(self)

    @property
    def mark_ends(self) -> int:
        return len(self.born)

    def take(self, letter: str, run: bytes, line: int, before: str) -> None:
        """Takes lines of one kind in, behind those of the kind before."""
        words = run.split()
        if letter == "a":
            self.procs.extend(map(int, words[1::5]))
            self.sizes.extend(map(int, words[2::5]))
            self.pointers += b"".join(words[3::5]).translate(POINTERS)
            self.stacks.extend(map(int, words[4::5]))
        elif letter == "g":
            self.born.append(len(self.sizes))
            self.starts.append(len(self.lows))
            self.names_dead.append(len(words) == 3)
        elif letter == "f":
            self.flushes.extend(Flush(len(self.sizes), int(word)) for word in words[1::2])
        elif letter in "md":
            if not self.born:
                raise Unusable(f"{self.name}: line {line}: marks before the first mark end")
            if before not in ("g", letter) or self.names_dead[-1] != (letter == "d"):
                raise Unusable(f"{self.name}: line {line}: no such line of a trace may stand here")
            self.lows.extend(map(int, words[1::3]))
            self.highs.extend(map(int, words[2::3]))

    def ranges(self, mark_end: int) -> List[Tuple[int, int]]:
        """What the lines of a mark end name."""
        end = self.starts[mark_end] if mark_end < len(self.starts) else len(self.lows)
        some = slice(self.starts[mark_end - 1], end)
        return list(zip(self.lows[some], self.highs[some]))

    def cycles(self) -> array:
        """Of each object the cycle in which it was allocated."""
        if self.known_cycles is None:
            self.known_cycles = array("I")
            for cycle, born in enumerate([*self.born, len(self.sizes)]):
                self.known_cycles.extend(itertools.repeat(cycle, born - len(self.known_cycles)))
        return self.known_cycles

    def lasts(self) -> array:
        """Of each object the last cycle in which it lives."""
        if self.known_lasts is None:
            self.known_lasts = self.found_lasts()
        return self.known_lasts

    def found_lasts(self) -> array:
        """An object dies at the mark end that names it dead, or else at the first that names the marked and does not name it. So it is enough to
        look at what the lines name, and once at each object."""
        named, died = array("I", self.cycles()), array("I", bytes(4 * len(self.sizes)))
        for mark_end, names_dead in enumerate(self.names_dead, 1):
            column = died if names_dead else named
            for low, high in self.ranges(mark_end):
                high = min(high, len(column) - 1)
                column[low : high + 1] = array("I", [mark_end]) * max(high + 1 - low, 0)
        if not any(self.names_dead):
            return named
        # of each cycle the last one up to which an object lives that is named in it, if none names it dead
        until = [self.mark_ends] * (self.mark_ends + 1)
        for cycle in range(self.mark_ends - 1, -1, -1):
            until[cycle] = until[cycle + 1] if self.names_dead[cycle] else cycle
        return array("I", (end - 1 if end else until[last] for end, last in zip(died, named)))

    def marked(self, mark_end: int) -> Iterator[int]:
        """The objects that this mark end marks, in rising order."""
        last, born = -1, self.born[mark_end - 1]
        ranges = self.ranges(mark_end)
        for low, high in ranges:
            if not last < low <= high < born:
                raise Unusable(f"{self.name}: mark end {mark_end} cannot {'name dead' if self.names_dead[mark_end - 1] else 'mark'} the objects {low} to {high}")
            last = high
        if self.names_dead[mark_end - 1]:
            return (one for one, last in enumerate(self.lasts()[:born]) if last >= mark_end)
        return itertools.chain.from_iterable(range(low, high + 1) for low, high in ranges)


def read(file: BinaryIO, name: str) -> Trace:
    """The trace of this text. `name` is what it is called where it is refused."""
    front = file.readline(100)
    is_kind(name, front, "a trace")
    version = {f"{line}\n": version for line, version in tool.FIRST_LINES.items()}.get(front.decode("latin-1"))
    if version is None:
        raise tool.no_trace(name)
    numbers = HEADER.fullmatch(file.readline(200))
    if not numbers:
        raise Unusable(f"{name}: line 2: no second line of a trace")
    trace = Trace(name, version, dict(zip(NUMBERS, map(int, numbers.groups()))))
    before = ""
    for letter, run, line in runs(file, name, 3, "trace", REAL_FORMS if version >= REAL else FORMS):
        try:
            trace.take(letter, run, line, before)
        except OverflowError:
            raise Unusable(f"{name}: line {line}: a number is beyond the limits of a trace") from None
        before = letter
    return trace


def read_trace(lines: Iterable[str], name: str = "trace") -> Trace:
    """The trace that is spelled by these lines."""
    return read(joined(lines), name)


def trace_in(path: str) -> Trace:
    """The trace in the file; - is standard input."""
    with opened(path) as file:
        return read(file, tool.named(path))
