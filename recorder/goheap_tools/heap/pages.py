"""The pages of a region as the journal of a report goes on: whose each is, and behind which there is memory (`docs/pages.md`)."""

from typing import Any, Callable, Dict, NamedTuple, Optional, Tuple, Type

from goheap_tools.formats.journal import BLOCK, BLOCK_LINES, MAKING_LINES, Cut, Drop, Free, Give, Hold, Keep, Lend, Line, Miss, Pull, Scav, end_of
from goheap_tools.formats.traces import REAL
from goheap_tools.heap.classes import SLOTS

CHUNK = 512  # pages
MOST_PAGES = 2097152  # of the largest region
MOST_SCAVENGED = 64  # pages that one step of the run's own scavenger releases at most

# What a page can be: free, where it was never used, has memory, or was scavenged; in a span, by what the span is for; in a page cache; a stack's or
# another use's; out to the scavenger.
UNTOUCHED, FREE, RELEASED, SMALL, SMALL_PLAIN, LARGE, LARGE_PLAIN, CACHED, HELD, LENT = range(10)
FREE_KINDS = (UNTOUCHED, FREE, RELEASED)
SPAN_KINDS = (SMALL, SMALL_PLAIN, LARGE, LARGE_PLAIN)
TO_CACHED = bytes.maketrans(bytes(FREE_KINDS), bytes([CACHED] * len(FREE_KINDS)))
# Of a byte for each page of a block, whether it is 0.
ZEROS = bytes.maketrans(bytes([0, 1]), b"10")


def kind_of(span_class: int) -> int:
    """What a page in a span of this class is."""
    plain = span_class % 2
    return (LARGE, LARGE_PLAIN)[plain] if span_class < 2 else (SMALL, SMALL_PLAIN)[plain]


class Span(NamedTuple):
    """A span that is open."""

    pages: int
    span_class: int
    made: int  # the number of its making line


class Block:
    """The block that a processor pulled: its first page, the pages that are left as bits of a number, what they were, and the cycle of the pull."""

    def __init__(self, page: int, left: int, were: bytes, cycle: int) -> None:
        self.page, self.left, self.were, self.cycle = page, left, were, cycle

    def count(self) -> int:
        """How many pages are left."""
        return self.left.bit_count()

    def first_run(self, pages: int) -> Optional[int]:
        """The first of so many pages side by side that are left, at least one, or nothing."""
        run = self.left
        for _ in range(pages - 1):
            run &= run >> 1
        return self.page + (run & -run).bit_length() - 1 if run else None

    def has(self, page: int, pages: int) -> bool:
        """Whether all these pages are left."""
        bits = self.bits(page, pages)
        return bits is not None and self.left & bits == bits

    def bits(self, page: int, pages: int) -> Optional[int]:
        at = page - self.page
        return ((1 << pages) - 1) << at if 0 <= at and at + pages <= BLOCK else None

    def cut(self, page: int, pages: int) -> None:
        """These pages leave the block."""
        self.left &= ~(self.bits(page, pages) or 0)


class Pages:
    """The pages as the journal goes on. A region of so many pages, which grows where a line speaks of a later one."""

    def __init__(self, count: int = 0, version: int = 1) -> None:
        self.is_real = version >= REAL
        self.kinds, self.busy, self.scavenged = bytearray(count), bytearray(count), bytearray(b"\1") * count
        self.backed = self.in_spans = self.lines = 0
        self.low = 0  # below it no page is free
        self.spans: Dict[int, Span] = {}  # by first page
        self.held: Dict[int, int] = {}  # pages by first page, of runs that are held or kept
        self.lent: Dict[int, int] = {}
        self.blocks: Dict[int, Block] = {}  # those that are out, by processor

    def reach(self, count: int) -> None:
        """There are at least so many pages."""
        more = count - len(self.kinds)
        if more > 0:
            self.kinds.extend(bytes(more))
            self.busy.extend(bytes(more))
            self.scavenged.extend(b"\1" * more)

    def first_fit(self, pages: int) -> int:
        """The least page from which so many are free, or -1."""
        return self.busy.find(bytes(pages), self.low) if 0 < pages <= len(self.busy) else -1

    def first_block(self) -> Optional[Tuple[int, int]]:
        """The first page of the block of the least free page, and its free pages as bits of a number; nothing where none is."""
        least = self.first_fit(1)
        if least < 0:
            return None
        return least - least % BLOCK, self.free_in(least - least % BLOCK)

    def free_in(self, first: int) -> int:
        """The free pages of the block that begins there, as bits of a number."""
        return int(self.busy[first : first + BLOCK].translate(ZEROS)[::-1] or b"0", 2)

    def step(self) -> Optional[Tuple[int, int]]:
        """The run of a step of the own scavenger: the highest free page with memory, with those directly below it in its chunk, at most 64."""
        high = self.kinds.rfind(FREE)
        if high < 0:
            return None
        low = high
        while low > high - MOST_SCAVENGED + 1 and low % CHUNK and self.kinds[low - 1] == FREE:
            low -= 1
        return low, high - low + 1

    def fill(self, page: int, pages: int, kind: int) -> None:
        """These pages are of this kind from here on; they have memory unless they are free without it."""
        end, bare = page + pages, kind in (UNTOUCHED, RELEASED)
        self.backed += self.scavenged.count(1, page, end) - bare * pages
        self.kinds[page:end] = bytes([kind]) * pages
        self.busy[page:end] = bytes([kind not in FREE_KINDS]) * pages
        self.scavenged[page:end] = bytes([bare]) * pages
        if kind in FREE_KINDS:
            self.low = min(self.low, page)
        elif page <= self.low < end:
            self.low = end

    def go_on(self, line: Line) -> None:
        """Takes a line in, which may follow the lines before."""
        self.reach(end_of(line))
        if isinstance(line, MAKING_LINES):
            self.make(line)
        elif isinstance(line, Give):
            self.fill(line.page, line.pages, FREE)
            if span := self.spans.pop(line.page, None):
                self.in_spans -= span.pages
        elif isinstance(line, Scav):
            self.lent.pop(line.page, None)
            self.fill(line.page, line.pages, RELEASED)
        elif isinstance(line, BLOCK_LINES):
            if isinstance(line, Pull):
                self.pull(line)
            else:
                self.drop(line)
        elif not isinstance(line, Miss):
            self.others(line)
        self.lines += 1

    def make(self, line: Any) -> None:
        """A span is made, at first fit or out of a block."""
        if isinstance(line, Cut) and line.proc in self.blocks:
            self.blocks[line.proc].cut(line.page, line.pages)
        self.fill(line.page, line.pages, kind_of(line.span_class))
        self.spans[line.page] = Span(line.pages, line.span_class, self.lines)
        self.in_spans += line.pages

    def others(self, line: Any) -> None:
        """What is no span's."""
        if isinstance(line, Keep) and line.proc in self.blocks:
            self.blocks[line.proc].cut(line.page, line.pages)
        self.fill(line.page, line.pages, {Free: FREE, Lend: LENT}.get(type(line), HELD))
        if isinstance(line, Free):
            self.held.pop(line.page, None)
        else:
            (self.lent if isinstance(line, Lend) else self.held)[line.page] = line.pages

    def pull(self, line: Pull) -> None:
        """The free pages of a block go to a page cache. In a real run those without memory stay so."""
        first, end = line.page, line.page + BLOCK
        were = bytes(self.kinds[first:end])
        self.blocks[line.proc] = Block(first, self.free_in(first), were, line.cycle)
        self.kinds[first:end] = were.translate(TO_CACHED)
        self.busy[first:end] = b"\1" * BLOCK
        if not self.is_real:
            self.backed += self.scavenged.count(1, first, end)
            self.scavenged[first:end] = bytes(BLOCK)
        if first <= self.low < end:
            self.low = end

    def drop(self, line: Drop) -> None:
        """What is left of a block goes back: with memory, or in a real run as it was."""
        block = self.blocks.pop(line.proc, None)
        for at in range(BLOCK):
            if block and block.left >> at & 1:
                page = block.page + at
                self.kinds[page] = block.were[at] if self.is_real else FREE
                self.busy[page] = 0
                self.low = min(self.low, page)

    def misfit(self, line: Line) -> Optional[str]:
        """Why no such line can be of these pages, whatever else is asked of it; or nothing."""
        if end_of(line) > MOST_PAGES:
            return f"a region has {MOST_PAGES} pages at most"
        self.reach(end_of(line))
        misfit = MISFITS.get(type(line))
        return misfit(self, line) if misfit else None

    def are(self, line: Any, kind: int) -> bool:
        """Whether the line's pages are all of this kind."""
        return self.kinds.count(kind, line.page, line.page + line.pages) == line.pages

    def are_free(self, line: Any) -> bool:
        return line.pages > 0 and not any(self.busy[line.page : line.page + line.pages])

    def cannot_make(self, line: Any) -> Optional[str]:
        is_there = line.pages > 0 and self.are(line, CACHED) if isinstance(line, Cut) else self.are_free(line)
        return None if is_there and line.span_class < 2 * len(SLOTS) else "no such span can be made here"

    def cannot_give(self, line: Give) -> Optional[str]:
        span = self.spans.get(line.page)
        return None if span and span.pages == line.pages else "no such span is there to give back"

    def cannot_scavenge(self, line: Scav) -> Optional[str]:
        return None if self.lent.get(line.page) == line.pages or self.are(line, FREE) else "these pages are not free and backed"

    def cannot_pull(self, line: Pull) -> Optional[str]:
        return None if self.free_in(line.page).bit_count() == line.pages else "the block has not so many such pages"

    def cannot_drop(self, line: Drop) -> Optional[str]:
        block = self.blocks.get(line.proc)
        return None if block and block.page == line.page and block.count() == line.pages else "the block has not so many such pages"

    def cannot_hold(self, line: Any) -> Optional[str]:
        is_there = line.pages > 0 and self.are(line, CACHED) if isinstance(line, Keep) else self.are_free(line)
        return None if is_there else "no such run can be held here"

    def cannot_free(self, line: Free) -> Optional[str]:
        return None if self.held.get(line.page) == line.pages else "no such run is held"

    def cannot_lend(self, line: Lend) -> Optional[str]:
        return None if self.are(line, FREE) else "these pages are not free and backed"


MISFITS: Dict[Type[Line], Callable[[Pages, Any], Optional[str]]] = {
    **dict.fromkeys(MAKING_LINES, Pages.cannot_make), Give: Pages.cannot_give, Scav: Pages.cannot_scavenge, Pull: Pages.cannot_pull, Drop: Pages.cannot_drop,
    Hold: Pages.cannot_hold, Keep: Pages.cannot_hold, Free: Pages.cannot_free, Lend: Pages.cannot_lend,
}  # fmt: skip
