"""Holds a recording against the rules that Go's allocator follows, and against the runtime's own counters.

Each event is replayed on a plain heap: which pages are free, which slots are occupied, what each processor caches. Where an
event is not what the allocator would have done, `Untrue` says which rule it breaks. So it is the evidence that a recording
tells what happened: an event that is lost, doubled or out of order breaks a rule soon.
"""

from __future__ import annotations

from collections import Counter
from collections.abc import Callable, Iterable, Iterator
from dataclasses import dataclass, field
from typing import ClassVar, NamedTuple

from ..heap.classes import PAGE, SLOTS
from . import events as form
from .pages import Pages

TINY_BYTES = 16
TINY_CLASS = 5
LARGEST = SLOTS[-1]
CLASS_OF = {}
for _class in range(len(SLOTS) - 1, 0, -1):
    for _size in range(SLOTS[_class - 1] + 1, SLOTS[_class] + 1):
        CLASS_OF[_size] = _class


class Untrue(Exception):
    """An event that the allocator would not have done."""


@dataclass
class Life:
    """A span from its first page's taking to their giving back."""

    address: int
    pages: int
    span_class: int
    use: int
    swept: int
    occupied: int = 0
    cached: int | None = None
    slots: int = 0
    slot_bytes: int = 0

    def __post_init__(self) -> None:
        size_class = self.span_class >> 1
        self.slot_bytes = SLOTS[size_class] if size_class else self.pages * PAGE
        self.slots = self.pages * PAGE // self.slot_bytes if self.use == 0 else 0


NOWHERE = Life(0, 0, 0, -1, -1)  # where a span should be, and none is


@dataclass
class Totals:
    """What the runtime counts, too."""

    mallocs: int = 0
    frees: int = 0
    allocated: int = 0
    freed: int = 0
    heap_in_use: int = 0
    stack_in_use: int = 0


@dataclass
class Checker:
    """Takes events in order. `rules` counts how often each rule was held against an event."""

    rules: Counter = field(default_factory=Counter)
    generation: int = 0
    compared: int = 0
    last: form.Counts | None = None

    def __post_init__(self) -> None:
        self.forget()

    def forget(self) -> None:
        """Begins anew."""
        self.totals = Totals()
        self.heap = Pages(self.expect)
        self.spans: dict[int, Life] = {}
        self.at_page: dict[int, Life] = {}
        self.cached: dict[tuple[int, int], Life] = {}
        self.tiny: dict[int, tuple[int, int]] = {}
        self.unswept = 0
        self.standing = False

    def through(self, events: Iterable[NamedTuple]) -> Iterator[NamedTuple]:
        """Takes them, and hands each on behind its trial."""
        for event in events:
            action = self.ACTIONS.get(type(event))
            if action is None:
                raise Untrue(f"{event}: no such event is known here")
            action(self, event)
            yield event

    def all(self, events: Iterable[NamedTuple]) -> Checker:
        """Takes them all."""
        for _ in self.through(events):
            pass
        return self

    def expect(self, true: bool, rule: str, event: NamedTuple, why: object = "") -> None:
        self.rules[rule] += 1
        if not true:
            raise Untrue(f"{rule}: {event} {why}")

    # The beginning, and the heap as it stands there.

    def begin(self, event: form.Begin) -> None:
        self.forget()
        self.standing = event.reason != 0

    def span(self, event: form.Span) -> None:
        life = Life(event.address, event.pages, event.span_class, event.use, 0, event.occupied, event.cached)
        self.expect(event.use != 0 or event.slots == life.slots, "a standing span has the slots of its class", event, life)
        self._add(life)
        if event.cached is not None:
            self.cached[event.cached, event.span_class] = life

    # Pages.

    def pages(self, event: form.Pages) -> None:
        self.heap.stand(event)

    def block(self, event: form.Block) -> None:
        if event.kind == form.PULL:
            self.heap.pull(event)
        elif event.kind == form.DROP:
            self.heap.drop(event)
        else:
            self.heap.hold(event)

    def run(self, event: form.Run) -> None:
        if event.kind == form.GIVE:
            self._give(event)
            return
        if event.kind == form.CUT:
            self.heap.cut(event)
        else:
            self.heap.take(event)
        life = Life(event.address, event.pages, event.span_class, event.use, self.generation)
        self._add(life)

    def _add(self, life: Life) -> None:
        self.spans[life.address] = life
        if life.use == 0:
            for page in range(life.address // PAGE, life.address // PAGE + life.pages):
                self.at_page[page] = life
            self.totals.heap_in_use += life.pages * PAGE
        elif life.use == 1:
            self.totals.stack_in_use += life.pages * PAGE

    def _give(self, event: form.Run) -> None:
        life = self.spans.pop(event.address, NOWHERE)
        same = (life.pages, life.use) == (event.pages, event.use)
        standing = life.use == 4 and life.pages == event.pages
        self.expect(same or standing, "a run goes back as it was taken", event, life)
        if event.use == 0:
            self.expect(life.occupied == 0 and life.cached is None, "a span that goes back is empty", event, life)
            self.expect(life.swept == self.generation, "a span that goes back was swept in this cycle", event, life)
            for page in range(life.address // PAGE, life.address // PAGE + life.pages):
                del self.at_page[page]
            self.totals.heap_in_use -= life.pages * PAGE
        elif life.use == 1 or standing and event.use == 1:
            self.totals.stack_in_use -= life.pages * PAGE
        self.heap.give(event)

    # Objects.

    def object(self, event: form.Object) -> None:
        if event.kind == form.EMPTY:
            return
        self.totals.mallocs += 1
        if event.kind == form.RIDER:
            self._ride(event)
            return
        life = self.at_page.get(event.address // PAGE, NOWHERE)
        self.expect(life is not NOWHERE, "an object is in a span", event)
        self.totals.allocated += life.slot_bytes
        if event.kind == form.LARGE:
            self._large(event, life)
            return
        size = TINY_BYTES if event.flags & form.LEADS else event.size
        self.expect(life.span_class == CLASS_OF.get(size, 0) * 2 + (event.flags & form.POINTER_FREE), "its class is the object's", event, life)
        self.expect(life.cached == event.processor, "its processor has cached the span", event, life)
        self.expect(life.swept == self.generation, "the span was swept before it is filled", event, life)
        least = ~life.occupied & (life.occupied + 1)
        address = life.address + (least.bit_length() - 1) * life.slot_bytes
        self.expect(event.address == address and least < 1 << life.slots, "the lowest free slot is taken", event, life)
        life.occupied |= least
        if event.flags & form.LEADS:
            self._lead(event)

    def _large(self, event: form.Object, life: Life) -> None:
        fits = life.address == event.address and life.span_class == (event.flags & form.POINTER_FREE)
        self.expect(fits and life.pages == -(-event.size // PAGE), "a large object has a span of its own", event, life)
        self.expect(life.occupied == 0 and event.size > LARGEST, "a large object has a fresh span", event, life)
        life.occupied = 1

    def _place(self, event: form.Object) -> int | None:
        """Where an object of this size rides in the tiny block of its processor, if it may."""
        address, used = self.tiny.get(event.processor, (0, 0))
        align = next((bytes for bytes in (8, 4, 2) if event.size % bytes == 0), 1)
        used = -(-used // align) * align
        return address + used if address and used + event.size <= TINY_BYTES else None

    def _ride(self, event: form.Object) -> None:
        place = self._place(event)
        self.expect(event.address == place and 0 < event.size < TINY_BYTES, "a rider is at its place in the block", event, place)
        block = self.tiny[event.processor][0]
        self.tiny[event.processor] = (block, event.address + event.size - block)
        self.totals.frees += 1

    def _lead(self, event: form.Object) -> None:
        self.expect(self._place(event) is None and event.size < TINY_BYTES, "an object leads where it cannot ride", event)
        block, used = self.tiny.get(event.processor, (0, 0))
        if not block or event.size < used:
            self.tiny[event.processor] = (event.address, event.size)

    # Caches, sweeps and mark ends.

    def cache(self, event: form.Cache) -> None:
        life = self.spans.get(event.address, NOWHERE)
        known = life.use == 0 and life.span_class == event.span_class
        self.expect(known, "a cached span is of its class", event, life)
        self.expect(life.cached is None and life.swept == self.generation, "a span is swept before it is cached", event, life)
        told = (event.objects, event.slots)
        self.expect(told == (life.occupied.bit_count(), life.slots), "a cached span has the objects that are told", event, life)
        self.expect(event.objects < event.slots, "a span that is cached is not full", event, life)
        before = self.cached.get((event.processor, event.span_class))
        if before is not None:
            self.expect(before.occupied == (1 << before.slots) - 1, "a span is left only when it is full", event, before)
            before.cached = None
        life.cached = event.processor
        self.cached[event.processor, event.span_class] = life

    def flush(self, event: form.Flush) -> None:
        self.expect(event.owner < form.PROCESSORS, "a flushed cache is a processor's", event)
        for processor, span_class in [key for key in self.cached if key[0] == event.owner]:
            self.cached.pop((processor, span_class)).cached = None
        self.tiny.pop(event.owner, None)

    def sweep(self, event: form.Sweep) -> None:
        life = self.spans.get(event.address, NOWHERE)
        known = life.use == 0 and (life.span_class, life.slots) == (event.span_class, event.slots)
        self.expect(known and event.generation == self.generation, "a swept span is one in use", event, life)
        self.expect(life.swept == self.generation - 2 and life.cached is None, "a span is swept once a cycle", event, life)
        life.swept = self.generation
        self.unswept -= 1
        before = life.occupied.bit_count()
        self.expect(event.stays & ~life.occupied == 0, "only objects stay", event, life)
        self.expect(event.before == before, "a sweep finds the objects that were allocated", event, life)
        filled = life.occupied & (1 << event.free_index) - 1
        self.expect(filled == (1 << event.free_index) - 1, "below the free index all slots are occupied", event, life)
        freed = before - event.after
        self.totals.frees += freed
        self.totals.freed += freed * life.slot_bytes
        life.occupied = event.stays

    def counts(self, event: form.Counts) -> None:
        if self.standing:
            self._stand_on(event)
        self.compare(event)
        if event.kind == form.MARK_END:
            self.expect(self.unswept == 0, "all spans are swept before the next mark end", event, self.unswept)
            self.unswept = sum(1 for life in self.spans.values() if life.use == 0)
            self.generation = event.generation

    def _stand_on(self, event: form.Counts) -> None:
        """A recording that begins later than the program counts from what the runtime has counted."""
        self.standing = False
        self.generation = event.generation - 2
        for life in self.spans.values():
            life.swept = self.generation
        objects = [life for life in self.spans.values() if life.use == 0]
        live = sum(life.occupied.bit_count() * life.slot_bytes for life in objects)
        self.expect(event.allocated - event.freed == live, "the standing objects have the bytes that the runtime counted", event, live)
        self.totals.mallocs, self.totals.frees = event.mallocs, event.frees
        self.totals.allocated, self.totals.freed = event.allocated, event.freed
        self.totals.stack_in_use = event.stack_in_use

    def compare(self, event: form.Counts) -> None:
        """Holds what was counted from the events against the runtime's own counters."""
        ours = self.totals
        mine = (ours.mallocs, ours.frees, ours.allocated, ours.freed, ours.heap_in_use, ours.stack_in_use, self.heap.released())
        told = (event.mallocs, event.frees, event.allocated, event.freed, event.heap_in_use, event.stack_in_use, event.released)
        names = ("Mallocs", "Frees", "bytes allocated", "bytes freed", "HeapInuse", "StackInuse", "HeapReleased")
        for name, counted, count in zip(names, mine, told, strict=True):
            self.expect(counted == count, f"{name} is the runtime's", event, f"counted {counted}")
        self.compared += 1
        self.last = event

    def quiet(self, event: NamedTuple) -> None:
        """Nothing to hold it against."""

    ACTIONS: ClassVar[dict[type, Callable]] = {
        form.Begin: begin, form.Span: span, form.Pages: pages, form.Block: block, form.Run: run, form.Growth: lambda self, event: self.heap.grow(event),
        form.Scavenging: lambda self, event: self.heap.scavenge(event), form.Object: object, form.Cache: cache, form.Flush: flush,
        form.Sweep: sweep, form.Counts: counts, form.Stop: quiet, form.MarkStart: quiet, form.Pace: quiet, form.Processors: quiet,
    }
