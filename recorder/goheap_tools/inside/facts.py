"""What a recording says of the heap at each mark end, summed up from its events alone, beside what the runtime itself counted there.

Each sum (objects, bytes, pages) is one of changes, so the events between two mark ends may be taken in any order: a chunk is gone through
once, and what stands in it belongs to the part of the recording that its ticket is in. A recording that begins behind the program's start has
the heap as it stood then, but not how much was allocated and freed before: those counts begin with the runtime's own of the mark end there.
"""

from array import array
from bisect import bisect_right
from collections import defaultdict
from dataclasses import dataclass, field
from typing import Any, Callable, Counter, Dict, Iterator, List, NamedTuple, Optional, Tuple

from goheap_tools import tool
from goheap_tools.heap.classes import PAGE, SLOTS, slot_of
from goheap_tools.heap.estimate import factor
from goheap_tools.inside import recording as form
from goheap_tools.inside.recording import Recording, Stack
from goheap_tools.inside.scan import ROW, Chunk, Chunks, Piece

TINY_BLOCK = 16
FIRST_TICKETED = 16
BOUNDARIES = (form.BEGIN, form.STOP, form.MARK_END, form.COUNTS)
OBJECTS, STACKS, NO_OBJECTS = 0, 1, 4  # uses of a run of pages
KNOWN_SIZES: Dict[Tuple[int, int, int], int] = {}


def slot_bytes(kind: int, flags: int, size: int) -> int:
    """The bytes of the heap that an object takes: a rider and an object of size 0 none of their own."""
    key = kind, flags & form.LEADS, size
    if key not in KNOWN_SIZES:
        own = kind in (form.OBJECT, form.LARGE)
        KNOWN_SIZES[key] = (TINY_BLOCK if flags & form.LEADS else slot_of(size)) if own else 0
    return KNOWN_SIZES[key]


@dataclass
class Sums:
    """What was allocated, freed and taken. `mallocs` and `frees` count as Go does: a rider in both, an object of size 0 in neither."""

    mallocs: int = 0
    frees: int = 0
    allocated: int = 0  # bytes of slots and large objects
    freed: int = 0
    riders: int = 0
    empty: int = 0
    sampled: int = 0  # objects that Go's own profile sampled
    pages: List[int] = field(default_factory=lambda: [0] * len(form.USES))  # in runs, by use
    grown: int = 0  # pages of the heap
    released: int = 0  # pages that the system has back, or did not give yet
    flushes: int = 0  # of a processor's cache in mid-cycle
    collections: int = 0
    sweeps: int = 0

    def add(self, other: "Sums") -> None:
        for name, value in vars(other).items():
            if name == "pages":
                self.pages = [one + more for one, more in zip(self.pages, value)]
            else:
                setattr(self, name, getattr(self, name) + value)

    def copy(self) -> "Sums":
        made = Sums()
        made.add(self)
        return made

    @property
    def heap_alloc(self) -> int:
        return self.allocated - self.freed

    @property
    def heap_in_use(self) -> int:
        return self.pages[OBJECTS] * PAGE

    @property
    def stack_in_use(self) -> int:
        return self.pages[STACKS] * PAGE

    @property
    def others_in_use(self) -> int:
        """Bytes of bitmaps and of the collector's work buffers."""
        return sum(self.pages[STACKS + 1 :]) * PAGE

    @property
    def idle(self) -> int:
        """Bytes of the heap in no run: free, or back with the system."""
        return (self.grown - sum(self.pages)) * PAGE


class Point(NamedTuple):
    """A moment at which the runtime's own counters are known, or the recording's end, where they are not."""

    name: str  # `mark end 3`, `ReadMemStats`, `end`
    clock: int  # nanoseconds since the program began
    sums: Sums
    told: Optional[form.Counts]
    processors: int

    def differences(self) -> List[str]:
        """Where the sums are not what the runtime counted."""
        if self.told is None:
            return []
        told, sums = self.told, self.sums
        pairs = (("Mallocs", sums.mallocs, told.mallocs), ("Frees", sums.frees, told.frees), ("HeapAlloc", sums.heap_alloc, told.allocated - told.freed),
                 ("HeapInuse", sums.heap_in_use, told.heap_in_use), ("StackInuse", sums.stack_in_use, told.stack_in_use),
                 ("HeapReleased", sums.released * PAGE, told.released))  # fmt: skip
        return [f"{name} {one:,} recorded, {other:,} counted" for name, one, other in pairs if one != other]


class Facts:
    """All that `facts` shows of a recording."""

    def __init__(self, recording: Recording):
        self.header = recording.header
        self.path = recording.path
        self.full: Counter[int] = Counter()  # objects by their stack and size: size << 32 | stack
        self.sampled: Counter[int] = Counter()  # those that Go's own profile sampled
        self.left_out = 0  # events behind the first ticket that is missing
        self.rate = 0
        chunks = Chunks(recording)
        self.find_boundaries(chunks)
        self.stacks: Dict[int, Stack] = chunks.stacks
        self.parts = [Sums() for _ in range(len(self.boundaries) + 1)]
        self.objects: List[Dict[int, Counter[int]]] = [defaultdict(Counter) for _ in self.parts]
        for numbers in chunks.by_processor.values():
            self.go_through(chunks, numbers)
        for part in range(len(self.parts)):
            self.take_objects(part)
        self.points = list(self.sum_up())

    # The first time through: which tickets there are, and at which of them a part begins.

    def find_boundaries(self, chunks: Chunks) -> None:
        tickets = array("Q")
        self.boundaries: List[Any] = []
        self.changes: List[form.Processors] = []
        for number in chunks.numbers:
            chunk = chunks.chunk(number)
            for piece in chunk.pieces():
                if piece.kind >= FIRST_TICKETED:
                    tickets.append(chunk.words[piece.at // 8 + 1])
                    if piece.kind in BOUNDARIES:
                        self.boundaries.append(chunk.event(piece))
                    elif piece.kind == form.PROCESSORS_CHANGE:
                        self.changes.append(chunk.event(piece))
                elif piece.kind == form.STACK:
                    chunks.take_stack(chunk, piece)
        self.missing = first_missing(self.path, tickets)
        self.boundaries = sorted((event for event in self.boundaries if event.ticket < self.missing), key=lambda event: event.ticket)
        self.changes = sorted((event for event in self.changes if event.ticket < self.missing), key=lambda event: event.ticket)
        if self.missing > 1 and not (self.boundaries and type(self.boundaries[0]) is form.Begin and self.boundaries[0].ticket == 1):
            raise tool.Unusable(f"{self.path}: the event with ticket 1 is no beginning of a recording")
        self.begins = [event.ticket for event in self.boundaries]
        self.rate = next((event.rate for event in reversed(self.boundaries) if type(event) is form.Counts), 0)

    # The second time: what each part has.

    def is_recorded(self, part: int) -> bool:
        """Whether the part is one that is recorded, and does not lie between a stop and the next beginning."""
        return part > 0 and type(self.boundaries[part - 1]) is not form.Stop

    def go_through(self, chunks: Chunks, numbers: List[int]) -> None:
        """One processor's chunks. What stands before its first ticket is of the first part."""
        ticket, part, end = 0, 1, 0
        for number in numbers:
            chunk = chunks.chunk(number)
            for piece in chunk.pieces():
                if piece.kind >= FIRST_TICKETED:
                    before, ticket = ticket, chunk.words[piece.at // 8 + 1]
                    if not before < ticket < self.header.next_ticket:
                        chunk.refuse(piece.at, f"ticket {ticket} does not rise, or was never drawn")
                    if ticket >= end:
                        part = bisect_right(self.begins, ticket)
                        end = self.begins[part] if part < len(self.begins) else 1 << 64
                if max(ticket, 1) >= self.missing:
                    self.left_out += (piece.end - piece.at) // 16 if piece.kind == ROW else piece.kind != form.STACK
                elif self.is_recorded(part):
                    self.take(chunk, piece, part)

    def take(self, chunk: Chunk, piece: Piece, part: int) -> None:
        if piece.kind == ROW:
            self.take_row(chunk.data[piece.at : piece.end], self.objects[part])
        elif piece.kind == form.LARGE:
            event = chunk.event(piece)
            self.objects[part][form.LARGE | event.flags << 8][event.size << 32 | event.stack] += 1
        elif piece.kind in TAKERS:
            TAKERS[piece.kind](chunk.event(piece), self.parts[part])

    def take_row(self, row: bytes, objects: Dict[int, Counter[int]]) -> None:
        """Counts a row's objects by kind and flags, which most rows have the same of all, and by size and stack."""
        heads, words = array("H", row)[::8], array("Q", row)[1::2]
        if heads.count(heads[0]) == len(heads):
            objects[heads[0]].update(words)
        else:
            for head in set(heads):
                objects[head].update(word for one, word in zip(heads, words) if one == head)

    def take_objects(self, part: int) -> None:
        """The sums of a part's objects, which are counted by what is the same of them: kind and flags, and size and stack."""
        sums = self.parts[part]
        for head, word, count in ((head, word, count) for head, words in self.objects[part].items() for word, count in words.items()):
            kind, flags, size = head & 255, head >> 8, word >> 32
            self.full[word] += count
            if kind == form.EMPTY:
                sums.empty += count
                continue
            sums.mallocs += count
            sums.allocated += count * slot_bytes(kind, flags, size)
            if flags & form.SAMPLED:
                sums.sampled += count
                self.sampled[word] += count
            if kind == form.RIDER:
                sums.riders += count
                sums.frees += count

    # The sums at each point.

    def sum_up(self) -> Iterator[Point]:
        total, processors, change = Sums(), 0, 0
        awaits_base = False
        total.add(self.parts[0])
        for part, event in enumerate(self.boundaries, 1):
            while change < len(self.changes) and self.changes[change].ticket < event.ticket:
                processors = self.changes[change].after
                change += 1
            if type(event) is form.Begin:
                processors = event.processors or processors
                if event.reason:
                    total, awaits_base = Sums(), True
            elif type(event) is form.Counts:
                if awaits_base:
                    base_on(total, event)
                    awaits_base = False
                mark_end = event.kind == form.MARK_END
                name = f"mark end {event.collections}" if mark_end else "ReadMemStats"
                yield Point(name, event.clock - self.header.clock, total.copy(), event, processors)
                total.collections += mark_end
            total.add(self.parts[part])
        for event in self.changes[change:]:
            processors = event.after
        if self.boundaries and type(self.boundaries[-1]) is not form.Stop:
            yield Point("end", 0, total, None, processors)


def base_on(total: Sums, told: form.Counts) -> None:
    """What was allocated and freed before the recording began is what the runtime counted by then; so is how many of the pages that have no
    objects are stacks."""
    stacks = told.stack_in_use // PAGE - total.pages[STACKS]
    total.pages[STACKS] += stacks
    total.pages[NO_OBJECTS] -= stacks
    total.mallocs, total.frees, total.allocated, total.freed, total.released = told.mallocs, told.frees, told.allocated, told.freed, told.released // PAGE


def first_missing(path: str, tickets: array) -> int:
    """The first ticket that no event has. Refuses one that two have."""
    ordered = sorted(tickets)
    for at, ticket in enumerate(ordered, 1):
        if ticket != at:
            if at > 1 and ticket == ordered[at - 2]:
                raise tool.Unusable(f"{path}: ticket {ticket} was drawn twice")
            return at
    return len(ordered) + 1


# What each kind of event changes.


def take_sweep(event: form.Sweep, sums: Sums) -> None:
    sums.sweeps += 1
    freed = event.before - event.after
    sums.frees += freed
    if event.span_class > 1:
        sums.freed += freed * SLOTS[event.span_class // 2]


def take_run(event: form.Run, sums: Sums) -> None:
    """A run is taken, or goes back. Of large objects the bytes are freed where their span goes back."""
    if event.kind == form.GIVE:
        sums.pages[event.use] -= event.pages
        if event.use == OBJECTS and event.span_class <= 1:
            sums.freed += event.pages * PAGE
    else:
        sums.pages[event.use] += event.pages
        sums.released -= event.scavenged


def take_growth(event: form.Growth, sums: Sums) -> None:
    sums.grown += event.bytes // PAGE
    sums.released += event.bytes // PAGE


def take_scavenging(event: form.Scavenging, sums: Sums) -> None:
    if event.kind == form.SCAVENGED:
        sums.released += event.pages


def take_flush(event: form.Flush, sums: Sums) -> None:
    sums.flushes += event.mid_cycle


def take_span(event: form.Span, sums: Sums) -> None:
    """A span that was there as the recording began."""
    sums.pages[event.use] += event.pages


def take_pages(event: form.Pages, sums: Sums) -> None:
    sums.grown += 512


TAKERS: Dict[int, Callable[[Any, Sums], None]] = {
    form.SWEEP: take_sweep, form.CUT: take_run, form.TAKE: take_run, form.GIVE: take_run, form.GROWTH: take_growth, form.SCAVENGED: take_scavenging,
    form.FLUSH: take_flush, form.SPAN: take_span, form.PAGES: take_pages,
}  # fmt: skip


# Go's own profile beside the full one.


class Sample(NamedTuple):
    """A stack's objects, all of them and those that Go's profile sampled; and what Go's tools would estimate from these."""

    stack: int
    objects: int
    size: int  # bytes asked for
    sampled: int
    estimated_objects: float
    estimated_size: float


def profiles(facts: Facts) -> List[Sample]:
    """Both profiles of what was allocated, by stack, those of the most bytes first."""
    found: Dict[int, List[float]] = {}
    for counts, at in ((facts.full, 0), (facts.sampled, 2)):
        for word, count in counts.items():
            size, stack = word >> 32, word & 0xFFFFFFFF
            sums = found.setdefault(stack, [0, 0, 0, 0, 0])
            sums[at] += count
            if at:
                scale = count * factor(size, facts.rate)
                sums[3] += scale
                sums[4] += scale * size
            else:
                sums[1] += count * size
    samples = [Sample(stack, int(one[0]), int(one[1]), int(one[2]), one[3], one[4]) for stack, one in found.items()]
    return sorted(samples, key=lambda one: (-one.size, one.stack))
