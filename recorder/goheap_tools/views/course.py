"""What a picture of a report shows: the pages as the journal goes on, the lives of spans, and the spans that the last mark end found."""

import itertools
from bisect import bisect_right
from collections import Counter, defaultdict
from typing import Dict, Iterator, List, NamedTuple, Optional, Sequence, Tuple

from goheap_tools.formats.frames import shown_frames
from goheap_tools.formats.journal import MAKING_LINES, REAL_LINES, Give, Line, Miss, end_of
from goheap_tools.formats.report import Report, Sweep
from goheap_tools.formats.traces import REAL, Trace
from goheap_tools.heap.classes import BASE, PAGE, PAGES, SLOTS
from goheap_tools.heap.pages import FREE, MOST_PAGES, SPAN_KINDS, Pages
from goheap_tools.tool import Unusable
from goheap_tools.views.painted import Painted
from goheap_tools.views.sheet import FIRST_FUNCTION, FUNCTION_COLOURS, KINDS

RGB = [bytes.fromhex(colour[1:]) for colour in (*(KINDS[kind][0] for kind in sorted(KINDS)), *FUNCTION_COLOURS)]
# What a page in a span can be shown as.
SHOWN_SPANS = (*SPAN_KINDS, *range(FIRST_FUNCTION, FIRST_FUNCTION + len(FUNCTION_COLOURS)))
MOST_CYCLES = 1_000_000


def slot_and_room(span_class: int, pages: int) -> Tuple[int, int]:
    """The bytes of an object of such a span, and how many there is room for."""
    if span_class < 2:
        return pages * PAGE, 1
    slot = SLOTS[span_class // 2]
    return slot, PAGES[span_class // 2] * PAGE // slot


def class_text(span_class: int, pages: int) -> str:
    """What a span of this class is for."""
    pointers = "without pointers" if span_class % 2 else "with pointers"
    if span_class < 2:
        return f"one large object {pointers}, in {pages * PAGE:,} bytes"
    slot, room = slot_and_room(span_class, pages)
    return f"span class {span_class}: objects of up to {slot:,} bytes {pointers}, room for {room:,}"


class Life(NamedTuple):
    """A span from when it was taken to when it was given back, by columns of the map; `end` is nothing where it is there at the end."""

    page: int
    pages: int
    span_class: int
    cycle: int
    begin: int
    end: Optional[int]


class Found(NamedTuple):
    """A span that a mark end found."""

    page: int
    pages: int
    span_class: int
    kept: int
    freed: int


def slot_at(pages: Pages, page: int) -> int:
    """The bytes of an object of the span that begins at this page."""
    span = pages.spans.get(page)
    return slot_and_room(span.span_class, span.pages)[0] if span else 0


def check(report: Report) -> None:
    """Refuses numbers that no run of goheap can print, and that could not be drawn."""
    for line in itertools.chain(report.journal, report.sweeps):
        if line.cycle > MOST_CYCLES:
            raise Unusable(f"a report has at most {MOST_CYCLES} cycles, not {line.cycle}")
        if not isinstance(line, Miss) and (line.page + 1 if isinstance(line, Sweep) else end_of(line)) > MOST_PAGES:
            raise Unusable(f"a region has {MOST_PAGES} pages at most, and no page {line.page}")
        if getattr(line, "span_class", 0) >= 2 * len(SLOTS):
            raise Unusable(f"there is no span class {line.span_class}")
    if any(sweep.cycle == 0 for sweep in report.sweeps):
        raise Unusable("nothing is swept in cycle 0")


def version_of(journal: Sequence[Line], trace: Optional[Trace] = None) -> int:
    """The version of the trace, by which page caches go on; without one, whether the journal has lines of real runs."""
    return trace.version if trace else REAL if any(isinstance(line, REAL_LINES) for line in journal) else REAL - 1


def top_page(journal: Sequence[Line]) -> int:
    """The number of pages that the journal speaks of."""
    return max(map(end_of, journal), default=0) or 1


class Shades:
    """The colour of a row of the map: the mean of its pages' colours, so that a row of several pages shows how many of them are used."""

    def __init__(self) -> None:
        self.known = {}

    def of(self, part: bytes) -> bytes:
        shade = self.known.get(part)
        if shade is None:
            counts = [part.count(kind) for kind in range(len(RGB))]
            shade = bytes(sum(count * colour[at] for count, colour in zip(counts, RGB)) // len(part) for at in range(3))
            self.known[part] = shade
        return shade

    def column(self, kinds: bytes, rows: int) -> List[bytes]:
        kinds = bytes(kinds)
        count = len(kinds)
        return [self.of(kinds[row * count // rows : (row + 1) * count // rows]) for row in range(rows)]


class Course:
    """What is drawn: the columns of the map, and for each its backed pages, pages in spans, live spans and cycle; the bytes that each
    mark end kept; the columns of the misses; the lives of spans; and the spans and pages as the last mark end found them."""

    def __init__(self, report: Report, columns: int, rows: int, trace: Optional[Trace] = None, painted: Optional[Painted] = None) -> None:
        self.painted = painted
        self.map, self.backed, self.in_spans, self.spans, self.cycles, self.misses, self.kinds = [], [], [], [], [], [], set()
        self.kept_bytes = defaultdict(int)
        self.sweeps = defaultdict(list)
        for sweep in report.sweeps:
            self.sweeps[sweep.cycle].append(sweep)
        self.last_mark_end = max(self.sweeps, default=0)
        self.found, self.found_kinds = [], bytes(top_page(report.journal))
        self.lives, self.open = [], {}
        self.pages, self.cycle = Pages(top_page(report.journal), version_of(report.journal, trace)), 0
        self.follow(report.journal, columns, rows)
        for cycle in sorted(self.sweeps):
            self.begin(cycle)
        self.lives += self.open.values()
        self.found_at = {span.page: span for span in self.found}

    def begin(self, cycle: int) -> None:
        """A cycle begins: the spans of its sweeps are those that are alive now."""
        self.cycle = max(self.cycle, cycle)
        sweeps = self.sweeps.pop(cycle, ())
        for sweep in sweeps:
            self.kept_bytes[cycle] += sweep.kept * slot_at(self.pages, sweep.page)
        if cycle == self.last_mark_end:
            self.found = [Found(sweep.page, *self.pages.spans[sweep.page][:2], sweep.kept, sweep.freed) for sweep in sweeps if sweep.page in self.pages.spans]
            self.found_kinds = bytes(self.pages.kinds)

    def live(self, line: Line, column: int) -> None:
        """Spans begin and end in this column."""
        if isinstance(line, MAKING_LINES):
            self.open[line.page] = Life(line.page, line.pages, line.span_class, line.cycle, column, None)
        elif isinstance(line, Give) and line.page in self.open:
            self.lives.append(self.open.pop(line.page)._replace(end=column))

    def follow(self, journal: Sequence[Line], columns: int, rows: int) -> None:
        shades = Shades()
        for number in range(columns):
            for line in journal[number * len(journal) // columns : (number + 1) * len(journal) // columns]:
                for cycle in range(self.cycle + 1, line.cycle + 1):
                    self.begin(cycle)
                self.pages.go_on(line)
                if self.painted and isinstance(line, MAKING_LINES):
                    colour = FIRST_FUNCTION + self.painted.of_line.get(self.pages.lines - 1, len(FUNCTION_COLOURS) - 1)
                    self.pages.kinds[line.page : line.page + line.pages] = bytes([colour]) * line.pages
                self.live(line, number)
                if isinstance(line, Miss):
                    self.misses.append(number)
            self.map.append(shades.column(self.pages.kinds, rows))
            self.backed.append(self.pages.backed)
            self.in_spans.append(self.pages.in_spans)
            self.spans.append(len(self.pages.spans))
            self.cycles.append(self.cycle)
        self.kinds = {kind for part in shades.known for kind in part}

    def kept_pages(self) -> List[float]:
        """For each column the pages that the objects would fill which the mark end before it kept."""
        return [self.kept_bytes[cycle] / PAGE for cycle in self.cycles]

    def fills(self, columns: int) -> Iterator[Tuple[float, float, float]]:
        """For each part of the pages at the last mark end: how much of it is in spans, how much is free and backed, and how much the objects
        that it kept fill, from 0 to 1."""
        count = len(self.found_kinds)
        kept = [0.0] * count
        for span in self.found:
            slot, _ = slot_and_room(span.span_class, span.pages)
            for page in range(span.page, span.page + span.pages):
                kept[page] = span.kept * slot / (span.pages * PAGE)
        for number in range(columns):
            begin, end = number * count // columns, (number + 1) * count // columns
            part = self.found_kinds[begin:end]
            in_spans = sum(part.count(kind) for kind in SHOWN_SPANS)
            yield in_spans / len(part), part.count(FREE) / len(part), sum(kept[begin:end]) / len(part)


class Holders:
    """Which stacks hold the spans that the last mark end found, by a trace and the stacks of its recording."""

    def __init__(self, course: Course, report: Report, trace: Optional[Trace], stacks: Dict[int, List[str]]) -> None:
        self.stacks = stacks
        self.spans = sorted(span.page for span in course.found)
        self.pages = {span.page: span.pages for span in course.found}
        self.counts = defaultdict(Counter)
        if trace and course.last_mark_end and course.last_mark_end <= trace.mark_ends:
            for one in trace.marked(course.last_mark_end):
                self.add(report.addresses[one], trace.stacks[one])

    def add(self, address: int, stack: int) -> None:
        if address >= BASE:
            page = (address - BASE) // PAGE
            at = bisect_right(self.spans, page) - 1
            if at >= 0 and page < self.spans[at] + self.pages[self.spans[at]]:
                self.counts[self.spans[at]][stack] += 1

    def of(self, page: int) -> Iterator[str]:
        """The stacks with the most objects in the span, each in a line."""
        for stack, count in self.counts[page].most_common(3):
            frames = self.stacks.get(stack)
            yield f"{count} of {shown_frames(frames)[0] if frames else f'stack {stack}'}"
        more = len(self.counts[page]) - 3
        if more > 0:
            yield f"and of {more} other stacks"
