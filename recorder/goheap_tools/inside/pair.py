"""Makes of a recording a trace of version 4, and the report of what the real runtime did (docs/real-runs.md).

The events are gone through in their order. Each object, with its processor, stack and address, and each page run, with who has it, stands in the
trace or the report as the runtime had it; the totals and the profile are counted from the trace, at rate 1.
"""

from __future__ import annotations

from collections import Counter, defaultdict
from collections.abc import Callable, Iterable, Iterator
from dataclasses import dataclass, field
from typing import Any

from ..heap.classes import SLOTS
from ..tool import Unusable
from . import events as form
from .recording import Recording

BASE = 0xC000000000
CHUNK_PAGES = 512
MOST_DISTANCE = 1 << 40


@dataclass
class Span:
    """A span of objects, with the numbers of the objects in each of its slots; several of one slot share a tiny block."""

    page: int
    pages: int
    span_class: int
    slots: dict[int, list[int]] = field(default_factory=lambda: defaultdict(list))

    @property
    def slot(self) -> int:
        """Bytes of a slot."""
        return SLOTS[self.span_class // 2] if self.span_class >= 2 else self.pages * form.PAGE


@dataclass
class Cycle:
    """What lies between two mark ends."""

    lines: list[str] = field(default_factory=list)  # the `a` and `f` lines
    distance: int = 1  # of the mark end behind it
    dead: list[int] = field(default_factory=list)  # who is not found alive by that mark end


def page_of(address: int) -> int:
    return (address - BASE) // form.PAGE


class Pair:
    """The trace and the report so far."""

    def __init__(self) -> None:
        self.cycles = [Cycle()]
        self.answers: list[str] = []
        self.placed: list[tuple[int, int, int, int]] = []  # of each slot that was used: object, cycle, span class, bytes
        self.stack_of: list[int] = []
        self.sizes: Counter[int] = Counter()  # slots as the trace's sizes ask for them
        self.journal: list[str] = []
        self.sweeps: list[tuple[int, int, int, int]] = []
        self.stacks: dict[int, int] = {}  # the trace's numbers of the recording's stacks
        self.spans: dict[int, Span] = {}  # by each of their pages
        self.blocks: dict[int, tuple[int, int]] = {}  # by processor: first page, and bits of the pages that are left
        self.processors = 1
        self.end = BASE + 1
        self.stacks_held = 0  # pages of goroutine stacks
        self.memory: list[tuple[int, int]] = []  # at each mark end: pages of the heap, and of goroutine stacks
        self.behind = 0  # objects behind the last mark end that was swept whole, and the next one
        self.actions: dict[type, Callable[[Any], None]] = {
            form.Object: self.object, form.Run: self.run, form.Block: self.block, form.Sweep: self.sweep, form.Flush: self.flush,
            form.Scavenging: self.scavenging, form.Growth: self.growth, form.Pace: self.pace,
        }  # fmt: skip

    @property
    def last(self) -> int:
        """The number of the cycle, and of the last mark end."""
        return len(self.cycles) - 1

    @property
    def chunks(self) -> int:
        return -(-(self.end - BASE) // (form.PAGE * CHUNK_PAGES))

    def take(self, event: object) -> None:
        """Goes on by an event."""
        if type(event) is form.Counts:
            if event.kind == form.MARK_END:
                self.cycles.append(Cycle())
                self.memory.append((page_of(self.end), self.stacks_held))
        elif action := self.actions.get(type(event)):
            action(event)

    def processor(self, number: int) -> int:
        """Before there are processors the runtime works with the caches that the first one gets."""
        number = 0 if number == form.NO_PROCESSOR else number
        self.processors = max(self.processors, number + 1)
        return number

    def object(self, event: form.Object) -> None:
        number, processor = len(self.answers), self.processor(event.processor)
        stack = self.stacks.setdefault(event.stack, len(self.stacks))
        letter = "n" if event.flags & form.POINTER_FREE else "s"
        self.cycles[-1].lines.append(f"a {processor} {event.size} {letter} {stack}")
        self.stack_of.append(stack)
        if event.kind == form.EMPTY:
            self.answers.append("zero")
            return
        self.answers.append(f"{event.address:#x}")
        span = self.spans[page_of(event.address)]
        span.slots[(event.address - BASE - span.page * form.PAGE) // span.slot].append(number)
        if event.kind != form.RIDER:
            self.placed.append((number, self.last, span.span_class, span.slot))

    def line(self, what: str) -> None:
        self.journal.append(f"j {len(self.journal)} {self.last} {what}")

    def run(self, event: form.Run) -> None:
        page, is_span, who = page_of(event.address), event.use == 0, ""
        if event.use == form.STACKS:
            self.stacks_held += -event.pages if event.kind == form.GIVE else event.pages
        if event.kind == form.GIVE:
            self.line(f"{'give' if is_span else 'free'} {page} {event.pages}")
            for at in range(page, page + event.pages):
                self.spans.pop(at, None)
            return
        if event.kind == form.CUT:
            number = self.processor(event.processor)
            first, left = self.blocks[number]
            self.blocks[number] = first, left & ~(((1 << event.pages) - 1) << (page - first))
            who = f"{number} "
        if is_span:
            self.line(f"{'cut' if who else 'take'} {who}{page} {event.pages} {event.span_class}")
            self.spans.update(dict.fromkeys(range(page, page + event.pages), Span(page, event.pages, event.span_class)))
        else:
            self.line(f"{'keep' if who else 'hold'} {who}{page} {event.pages}")

    def block(self, event: form.Block) -> None:
        """A page cache is filled or goes back. Of a block without a page left the runtime says nothing: its drop stands before the next pull."""
        page, count = page_of(event.address), event.free.bit_count()
        if event.kind == form.DROP:
            owner = self.processor(event.owner)
            self.blocks.pop(owner)
            self.line(f"drop {owner} {page} {count}")
            return
        owner = self.processor(event.processor)
        if owner in self.blocks:
            self.line(f"drop {owner} {self.blocks[owner][0]} 0")
        self.blocks[owner] = page, event.free
        self.line(f"pull {owner} {page} {count}")

    def sweep(self, event: form.Sweep) -> None:
        page = page_of(event.address)
        span, dead = self.spans[page], self.cycles[-2].dead
        kept = [slot for slot in span.slots if event.stays >> slot & 1]
        gone = [slot for slot in span.slots if not event.stays >> slot & 1]
        for slot in gone:
            dead += span.slots.pop(slot)
        self.sweeps.append((self.last, page, len(kept), len(gone)))

    def flush(self, event: form.Flush) -> None:
        if event.mid_cycle and event.owner < self.processors:
            self.cycles[-1].lines.append(f"f {event.owner}")

    def scavenging(self, event: form.Scavenging) -> None:
        self.line(f"{'lend' if event.kind == form.LEND else 'scav'} {page_of(event.address)} {event.pages}")

    def growth(self, event: form.Growth) -> None:
        self.end = max(self.end, event.address + event.bytes)

    def pace(self, event: form.Pace) -> None:
        if self.last:
            self.cycles[-2].distance = min(max(event.trigger - event.live, 1), MOST_DISTANCE)


def swept_whole(events: list) -> int:
    """How many of the events stand before the first mark end whose sweep is not whole."""
    spans: set[int] = set()
    unswept: set[int] = set()
    begun = len(events)
    for at, event in enumerate(events):
        kind = type(event)
        if kind is form.Counts and event.kind == form.MARK_END:
            begun, unswept = at, set(spans)
        elif kind is form.Run and event.use == 0:
            if event.kind == form.GIVE:
                spans.discard(event.address)
                unswept.discard(event.address)
            else:
                spans.add(event.address)
        elif kind is form.Sweep:
            unswept.discard(event.address)
    return begun if unswept else len(events)


def pair_of(recording: Recording) -> Pair:
    """The trace and the report of a recording that begins with its program, up to the first mark end whose sweep is not whole."""
    pair = Pair()
    events = list(recording.events())
    if not events or type(events[0]) is not form.Begin or events[0].reason:
        raise Unusable(f"{recording.path}: the recording does not begin with its program, and how its heap came to be is not known")
    whole = swept_whole(events)
    pair.behind = sum(type(event) is form.Object for event in events[whole:])
    for event in events[:whole]:
        if type(event) is form.Begin and event.reason or type(event) is form.Stop:
            raise Unusable(f"{recording.path}: the recording was stopped in between, and what the heap did meanwhile is not known")
        try:
            pair.take(event)
        except KeyError:
            raise Unusable(f"{recording.path}: an event does not fit what came before it: {event}") from None
    return pair


def neighbours(numbers: Iterable[int]) -> list[tuple[int, int]]:
    """The runs of neighbouring numbers, each by its first and its last."""
    found: list[tuple[int, int]] = []
    for number in sorted(numbers):
        if found and found[-1][1] + 1 == number:
            found[-1] = found[-1][0], number
        else:
            found.append((number, number))
    return found


def trace_lines(pair: Pair) -> Iterator[str]:
    """The trace, in which each mark end names the dead."""
    yield "goheap 4\n"
    yield f"heap {pair.chunks} procs {pair.processors} rate 1 seed 1 goal {pair.chunks * CHUNK_PAGES}\n"
    for at, cycle in enumerate(pair.cycles):
        yield from (line + "\n" for line in cycle.lines)
        if at < pair.last:
            yield f"gc {cycle.distance} all\n"
            yield from (f"d {low} {high}\n" for low, high in neighbours(cycle.dead))
    yield "end\n"


def report_lines(pair: Pair) -> Iterator[str]:
    """The report: what was recorded, and behind it the totals and the profile as of the last mark end."""
    dead = {number for cycle in pair.cycles for number in cycle.dead}
    yield from (f"o {number} {answer}\n" for number, answer in enumerate(pair.answers))
    yield from (line + "\n" for line in pair.journal)
    yield from ("s {} {} {} {}\n".format(*sweep) for sweep in sorted(pair.sweeps))
    mallocs, frees, allocs, gone = Counter[int](), Counter[int](), Counter[tuple[int, int]](), Counter[tuple[int, int]]()
    for number, cycle, span_class, slot in pair.placed:
        mallocs[span_class // 2] += 1
        frees[span_class // 2] += number in dead
        if cycle < pair.last:
            allocs[pair.stack_of[number], slot] += 1
            gone[pair.stack_of[number], slot] += number in dead
    yield from (f"t {size_class} {mallocs[size_class]} {frees[size_class]}\n" for size_class in sorted(mallocs))
    yield from (f"p {pair.last} {stack} {slot} {allocs[stack, slot]} {gone[stack, slot]}\n" for stack, slot in sorted(allocs))
    yield "end\n"
