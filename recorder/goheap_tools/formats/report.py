"""Reads a report of goheap into columns. What the report must meet is for `goheap check` to say."""

import itertools
import re
from array import array
from collections.abc import Sequence
from typing import Any, BinaryIO, Dict, Iterable, Iterator, List, Mapping, NamedTuple

from goheap_tools import tool
from goheap_tools.formats.journal import KINDS, Line
from goheap_tools.formats.lines import joined, opened, runs
from goheap_tools.tool import Unusable

ZERO, MISSED = 0, 1  # in the place of an address: of size 0; not placed

# The form of a run of lines by its first letter, within the limits of the formats.
FORMS = {
    "o": rb"(?:o [0-9]{1,20} (?:0x[0-9a-f]{1,16}|zero|miss [0-9]{1,20})\n)+",
    "j": rb"(?:j [0-9]{1,20} [0-9]{1,10} (?:take [0-9]{1,10} [0-9]{1,10} [0-9]{1,3}|(?:give|scav|miss|hold|free|lend) [0-9]{1,10} [0-9]{1,10}"
    rb"|(?:pull|drop|keep) [0-9]{1,10} [0-9]{1,10} [0-9]{1,10}|cut [0-9]{1,10} [0-9]{1,10} [0-9]{1,10} [0-9]{1,3})\n)+",
    "s": rb"(?:s [0-9]{1,10} [0-9]{1,10} [0-9]{1,10} [0-9]{1,10}\n)+",
    "t": rb"(?:t [0-9]{1,3} [0-9]{1,20} [0-9]{1,20}\n)+",
    "p": rb"(?:p [0-9]{1,10} [0-9]{1,10} [0-9]{1,20} [0-9]{1,20} [0-9]{1,20}\n)+",
    "e": rb"end\n",
}
ORDER = "ojstpe"
MISS = re.compile(rb"miss [0-9]+")
NOWHERE = b" 0x2\n"


class Sweep(NamedTuple):
    """What a mark end kept and freed of a span."""

    cycle: int
    page: int
    kept: int
    freed: int


class Total(NamedTuple):
    """The objects of a size class."""

    size_class: int
    mallocs: int
    frees: int


class Bucket(NamedTuple):
    """The sampled objects of a stack and a slot size, as of a mark end."""

    mark_end: int
    stack: int
    slot: int
    allocs: int
    frees: int


class Rows(Sequence):
    """Lines of one kind, in columns."""

    def __init__(self, kind: Any) -> None:
        self.kind, self.columns = kind, [array("Q") for _ in kind._fields]

    def __len__(self) -> int:
        return len(self.columns[0])

    def __getitem__(self, at: Any) -> Any:
        if isinstance(at, slice):
            return list(map(self.kind._make, zip(*(column[at] for column in self.columns))))
        return self.kind._make(column[at] for column in self.columns)

    def __iter__(self) -> Iterator[Any]:
        return map(self.kind._make, zip(*self.columns))

    def __eq__(self, other: object) -> bool:
        return isinstance(other, Iterable) and list(self) == list(other)

    def take(self, words: List[bytes]) -> None:
        """Takes lines in, whose words these are."""
        step = len(self.columns) + 1
        for at, column in enumerate(self.columns, 1):
            column.extend(map(int, words[at::step]))


class Report:
    """The address of each object, or ZERO or MISSED; for each that was missed the number of the journal line that it names; the journal; the
    sweeps, the totals and the buckets of the profile."""

    def __init__(self, name: str = "report") -> None:
        self.name = name
        self.addresses = array("Q")
        self.misses: Dict[int, int] = {}
        self.journal: List[Line] = []
        self.sweeps, self.totals, self.buckets = Rows(Sweep), Rows(Total), Rows(Bucket)

    def take(self, letter: str, run: bytes, line: int) -> None:
        """Takes lines of one kind in."""
        if letter == "o":
            self.take_objects(run, line)
        elif letter == "j":
            self.take_journal(run, line)
        elif letter != "e":
            {"s": self.sweeps, "t": self.totals, "p": self.buckets}[letter].take(run.split())

    def take_objects(self, run: bytes, line: int) -> None:
        first = len(self.addresses)
        if b" 0x0\n" in run or b" 0x1\n" in run:
            # two addresses of no region, which are other answers than the words that stand for them here
            run = run.replace(b" 0x0\n", NOWHERE).replace(b" 0x1\n", NOWHERE)
        if b"m" in run:
            for words in map(bytes.split, run.splitlines()):
                if words[2] == b"miss":
                    self.misses[int(words[1])] = int(words[3])
        if b"m" in run or b"z" in run:
            run = MISS.sub(b"%#x" % MISSED, run.replace(b"zero", b"%#x" % ZERO))
        words = run.split()
        numbers = list(map(int, words[1::3]))
        if numbers != list(range(first, first + len(numbers))):
            at = next(at for at, number in enumerate(numbers) if number != first + at)
            raise Unusable(f"{self.name}: line {line + at}: this is not the line of object {first + at}")
        self.addresses.extend(map(int, words[2::3], itertools.repeat(16)))

    def take_journal(self, run: bytes, line: int) -> None:
        for at, text in enumerate(run.decode("ascii").splitlines()):
            _, number, cycle, word, *numbers = text.split()
            if int(number) != len(self.journal):
                raise Unusable(f"{self.name}: line {line + at}: this is not line {len(self.journal)} of the journal")
            self.journal.append(KINDS[word](int(cycle), *map(int, numbers)))


def read(file: BinaryIO, name: str, forms: Mapping[str, bytes] = FORMS) -> Report:
    """The report of this text. `name` is what it is called where it is refused."""
    report, before = Report(name), 0
    for letter, run, line in runs(file, name, 1, "report", forms):
        place = ORDER.index(letter)
        if place < before:
            raise Unusable(f"{name}: line {line}: no line of a report may stand here")
        before = place
        try:
            report.take(letter, run, line)
        except OverflowError:
            raise Unusable(f"{name}: line {line}: a number is beyond the limits of a report") from None
    return report


def read_report(lines: Iterable[str], name: str = "report") -> Report:
    """The report that is spelled by these lines."""
    return read(joined(lines), name)


def report_in(path: str) -> Report:
    """The report in the file; - is standard input."""
    with opened(path) as file:
        return read(file, tool.named(path))
