"""A trace and a report of it, with what the rules ask about: needs, lives, seats, and the numbers of lines. `rules.py` has the rules."""

import itertools
from array import array
from typing import Dict, Iterator, List, NamedTuple, Optional, Sized, Tuple

from goheap_tools.formats.journal import Cut, journal_text
from goheap_tools.formats.report import MISSED, Report
from goheap_tools.formats.traces import Trace
from goheap_tools.heap.classes import BASE, LARGEST, PAGE, PAGES, SLOTS
from goheap_tools.heap.tiny import BLOCK, Riders, is_tiny, riders_of, size_in


NONE = -1  # no life


class Need(NamedTuple):
    """What an object asks of the span that it is placed in."""

    span_class: int
    pages: int
    slot: int
    slots: int


class Life(NamedTuple):
    """A span from its Take or Cut to its Give, by their journal lines."""

    number: int
    page: int
    pages: int
    span_class: int
    cycle: int
    given: Optional[int]  # the Give's journal line
    end: float  # the Give's cycle


def need_of(size: int, has_pointers: bool) -> Need:
    plain = 0 if has_pointers else 1
    if size > LARGEST:
        pages = -(-size // PAGE)
        return Need(plain, pages, pages * PAGE, 1)
    size_class = next(one for one in range(1, len(SLOTS)) if SLOTS[one] >= size)
    return Need(2 * size_class + plain, PAGES[size_class], SLOTS[size_class], PAGES[size_class] * PAGE // SLOTS[size_class])


def pages_text(page: int, pages: int) -> str:
    return f"page {page}" if pages == 1 else f"pages {page} to {page + pages - 1}"


def class_name(span_class: int) -> str:
    pointers = "without pointers" if span_class % 2 else "with pointers"
    if span_class < 2:
        return f"one large object {pointers} (span class {span_class})"
    return f"objects of {SLOTS[span_class // 2]} bytes {pointers} (span class {span_class})" if span_class < 2 * len(SLOTS) else f"span class {span_class}, which there is not"


class Judged:
    """A trace and a report of it, with what the rules ask about."""

    def __init__(self, trace: Trace, report: Report, frames: Optional[Dict[int, List[str]]] = None) -> None:
        self.trace, self.report, self.frames = trace, report, frames or {}
        self.last, self.cycles = trace.mark_ends, trace.cycles()
        self.lasts = self.own_lasts = trace.lasts()
        self.set_needs()
        self.take_riders()
        self.lives: List[Life] = []  # in the order of their Take or Cut lines
        self.seats, self.indexes = array("i"), array("H")  # of each object the number of its life, or NONE, and its index there
        self.places()

    def set_needs(self) -> None:
        """What each object needs: of each the number of the need."""
        known: Dict[Tuple[int, int], int] = {}
        self.kinds = array("I", (known.setdefault(key, len(known)) for key in zip(self.trace.sizes, self.trace.pointers)))
        self.needs = [need_of(size_in(self.trace.version, size, bool(has_pointers)), bool(has_pointers)) for size, has_pointers in known]

    def take_riders(self) -> None:
        """Takes in who rides, where each object has an answer, and who has a slot of its own. A lead lives as long as its block, in which
        something lives."""
        addresses = self.report.addresses
        self.riders = riders_of(self.trace, addresses) if len(addresses) == len(self.lasts) else Riders()
        self.placed = bytearray(map(MISSED.__lt__, addresses))
        if self.riders:
            self.lasts = self.own_lasts[:]
        for one in self.riders:
            lead = self.riders.leads[one]
            self.lasts[lead] = max(self.lasts[lead], self.own_lasts[one])
            self.placed[one] = False

    # The numbers of lines.

    def places(self) -> None:
        report, at = self.report, 0
        self.starts = []
        parts: Tuple[Sized, ...] = (report.addresses, report.journal, report.sweeps, report.totals, report.buckets)
        for part in parts:
            self.starts.append(at + 1)
            at += len(part)
        self.end = at + 1

    def journal_line(self, number: int) -> int:
        return self.starts[1] + number

    def journal(self, number: int) -> str:
        """A journal line with where it stands."""
        return f"{journal_text(number, self.report.journal[number])} (line {self.journal_line(number)})"

    # Objects.

    def need(self, one: int) -> Need:
        return self.needs[self.kinds[one]]

    def placed_ones(self) -> Iterator[int]:
        """The objects that have a slot of their own, which what rides has not."""
        return itertools.compress(itertools.count(), self.placed)

    def is_lead(self, one: int) -> bool:
        event = self.trace.events[one]
        return is_tiny(self.trace.version, event.size, event.has_pointers) and one not in self.riders

    def object_text(self, one: int) -> str:
        """What an object is, with where it came from."""
        event = self.trace.events[one]
        frames = self.frames.get(event.stack)
        stack = f"stack {event.stack}" + (f", {frames[0]}" if frames else "")
        lead = f", the lead of a block of {BLOCK} bytes" if self.is_lead(one) else ""
        return f"Object {one} ({event.size} bytes {'with' if event.has_pointers else 'without'} pointers{lead}, of processor {event.proc}, {stack}) was allocated in cycle {event.cycle}"

    def address_text(self, one: int) -> str:
        return f"{self.report.addresses[one]:#x}"

    def life_text(self, life: Life) -> str:
        given = "" if life.given is None else f" and given back in cycle {life.end} by {self.journal(life.given)}"
        made = "cut" if isinstance(self.report.journal[life.number], Cut) else "taken"
        return f"the span at {pages_text(life.page, life.pages)}, for {class_name(life.span_class)}, {made} in cycle {life.cycle} by {self.journal(life.number)}{given}"

    def lifetime(self, one: int) -> str:
        begin, end = self.cycles[one], self.lasts[one]
        lives = f"lives in cycle {begin}" if begin == end else f"lives in the cycles {begin} to {end}"
        return lives if end == self.own_lasts[one] else f"{lives} for object {self.keeper(one, end)}, which rides in its block"

    def keeper(self, lead: int, mark_end: int) -> int:
        """An object in the lead's block that this mark end marks."""
        return next(one for one in self.riders if self.riders.leads[one] == lead and self.own_lasts[one] >= mark_end)

    def kept_text(self, one: int, mark_end: int) -> str:
        """An object that a mark end keeps, with for whom where it does not mark it."""
        return f"{one}" if self.own_lasts[one] >= mark_end else f"{one} for {self.keeper(one, mark_end)}"

    def seat_address(self, life: Life, index: int) -> int:
        return BASE + life.page * PAGE + index * self.slot(life)

    @staticmethod
    def slot(life: Life) -> int:
        return SLOTS[life.span_class // 2] if life.span_class > 1 else life.pages * PAGE
