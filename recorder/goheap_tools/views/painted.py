"""Which function holds most of each span, and which five functions hold most of all."""

from collections import Counter, defaultdict
from typing import Dict, List

from goheap_tools.formats.frames import name_of
from goheap_tools.formats.report import MISSED, Report
from goheap_tools.formats.stacks import Stacks
from goheap_tools.formats.traces import Trace
from goheap_tools.heap.classes import BASE, PAGE
from goheap_tools.heap.judged import need_of
from goheap_tools.heap.pinning import Names, Pins
from goheap_tools.heap.seats import lives_of
from goheap_tools.heap.tiny import size_in
from goheap_tools.views.sheet import FUNCTIONS


def ranked(held: Counter) -> List[str]:
    """The functions that hold most, by name where they hold as much."""
    return [name for name, _ in sorted(held.items(), key=lambda one: (-one[1], one[0]))[:FUNCTIONS]]


def most_of(counts: Counter) -> str:
    return min(counts, key=lambda name: (-counts[name], name))


class Painted:
    """The spans that a journal makes: `of_line` has for each making line the number of its function, from 0 on; FUNCTIONS for others."""

    def __init__(self, trace: Trace, report: Report, stacks: Stacks) -> None:
        names: Dict[int, str] = {}
        kinds: Dict[tuple, int] = {}
        by_life: Dict[int, Counter] = defaultdict(Counter)
        held: Counter = Counter()
        lives, lasts = lives_of(report), trace.lasts()
        for one, (cycle, address, size, has_pointers, stack) in enumerate(zip(trace.cycles(), report.addresses, trace.sizes, trace.pointers, trace.stacks)):
            if address <= MISSED:
                continue
            if stack not in names:
                names[stack] = name_of(stacks.shown(stack)[0])
            key = size, has_pointers
            if key not in kinds:
                kinds[key] = need_of(size_in(trace.version, size, bool(has_pointers)), bool(has_pointers)).span_class
            life = next((life for life in lives.get((address - BASE) // PAGE, ()) if life.begin <= cycle <= life.end and life.span_class == kinds[key]), None)
            if life:
                by_life[life.number][names[stack]] += size
            if lasts[one] >= trace.mark_ends and cycle < trace.mark_ends:
                held[names[stack]] += size
        self.names = ranked(held or sum(by_life.values(), Counter()))
        numbers = {name: number for number, name in enumerate(self.names)}
        self.of_line = {line: numbers.get(most_of(counts), FUNCTIONS) for line, counts in by_life.items()}


class Holding:
    """The spans that a mark end kept: `of_span` has for each the number of the function that has most objects in it; FUNCTIONS for others."""

    def __init__(self, pins: Pins, names: Names) -> None:
        mains = [most_of(Counter(names.function(stack) for stack in pins.stacks_of(span))) for span in range(len(pins.first))]
        pages: Counter = Counter()
        for name, count in zip(mains, pins.pages):
            pages[name] += count
        self.names = ranked(pages)
        numbers = {name: number for number, name in enumerate(self.names)}
        self.of_span = [numbers.get(name, FUNCTIONS) for name in mains]
