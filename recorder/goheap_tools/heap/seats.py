"""Which slot of its span each object of a report has, and what the spans come to at each mark end, by size class."""

from array import array
from collections import defaultdict
from typing import Dict, Iterator, List, NamedTuple

from goheap_tools.formats.journal import MAKING_LINES, Give
from goheap_tools.formats.report import MISSED, Report
from goheap_tools.formats.traces import Trace
from goheap_tools.heap.classes import BASE, PAGE, SLOTS
from goheap_tools.heap.judged import need_of
from goheap_tools.heap.pinning import Replay
from goheap_tools.heap.tiny import Riders, size_in

NONE = -1  # no slot of its own, or none that is known
NEVER = 1 << 32


class Life(NamedTuple):
    """A span from the cycle in which it was made to the one in which it went back; its number is that of the journal line that made it."""

    begin: int
    end: int
    page: int
    span_class: int
    number: int


def lives_of(report: Report) -> Dict[int, List[Life]]:
    """The spans that a page was in, by page."""
    found: Dict[int, List[Life]] = defaultdict(list)
    made: Dict[int, int] = {}  # pages by first page
    for number, line in enumerate(report.journal):
        if isinstance(line, MAKING_LINES):
            made[line.page] = line.pages
            for page in range(line.page, line.page + line.pages):
                found[page].append(Life(line.cycle, NEVER, line.page, line.span_class, number))
        elif isinstance(line, Give) and line.page in made:
            for page in range(line.page, line.page + made.pop(line.page)):
                found[page][-1] = found[page][-1]._replace(end=line.cycle)
    return found


def indexes_of(trace: Trace, report: Report, riders: Riders) -> array:
    """The index of each object in its span. Of an object that rides or was not placed there is none; nor where a page was in two spans of its class
    in the cycle of its allocation that begin at different pages."""
    lives, indexes, needs = lives_of(report), array("q"), {}
    leads = riders.leads
    for one, (cycle, address, size, has_pointers) in enumerate(zip(trace.cycles(), report.addresses, trace.sizes, trace.pointers)):
        if address <= MISSED or leads and leads[one] != one:
            indexes.append(NONE)
            continue
        key = size, has_pointers
        if key not in needs:
            needs[key] = need_of(size_in(trace.version, size, bool(has_pointers)), bool(has_pointers))
        need = needs[key]
        firsts = {life.page for life in lives.get((address - BASE) // PAGE, ()) if life.begin <= cycle <= life.end and life.span_class == need.span_class}
        indexes.append((address - BASE - firsts.pop() * PAGE) // need.slot if len(firsts) == 1 else NONE)
    return indexes


class Spans:
    """Spans that a mark end kept: how many, their pages, and the slots in them that no live object has."""

    def __init__(self) -> None:
        self.spans = self.pages = self.free = 0

    def add(self, spans: int, pages: int, free: int) -> None:
        self.spans += spans
        self.pages += pages
        self.free += free


def kept_spans(trace: Trace, report: Report) -> Iterator[Dict[int, Spans]]:
    """For each mark end the spans that it kept, by size class."""
    replay, sweeps, at = Replay(report, trace.version), sorted(report.sweeps, key=lambda sweep: sweep.cycle), 0
    for mark_end in range(1, trace.mark_ends + 1):
        replay.go_on(mark_end)
        found: Dict[int, Spans] = defaultdict(Spans)
        while at < len(sweeps) and sweeps[at].cycle <= mark_end:
            sweep, span = sweeps[at], replay.pages.spans.get(sweeps[at].page)
            at += 1
            if span and sweep.kept:
                slot = SLOTS[span.span_class // 2] or span.pages * PAGE
                found[span.span_class // 2].add(1, span.pages, span.pages * PAGE // slot - sweep.kept)
        yield found
