"""The events of a recording, one type a form; docs/recording-format.md says what each of them tells."""

from __future__ import annotations

from typing import NamedTuple

PROCESSORS = 1024
NO_PROCESSOR = 65535
PAGE = 8192
SPAN_CLASSES = 136
GREATEST_SLOTS = 1024

OBJECT, RIDER, EMPTY, LARGE, STACK = 1, 2, 3, 4, 5
BEGIN, STOP, MARK_START, MARK_END, SWEEP, PACE, PULL, DROP = 16, 17, 18, 19, 20, 21, 22, 23
CUT, TAKE, GIVE, GROWTH, LEND, SCAVENGED, CACHE, FLUSH = 24, 25, 26, 27, 28, 29, 30, 31
COUNTS, PROCESSORS_CHANGE = 32, 33
SPAN, PAGES, BLOCK = 48, 49, 50

POINTER_FREE, LEADS, SAMPLED, NOT_ASKED = 1, 2, 4, 8
STACKS = 1  # the use of runs that are goroutines' stacks
USES = ("objects", "stacks", "bitmaps", "work buffers", "not objects")


class Object(NamedTuple):
    """An allocation: kind is OBJECT, RIDER, EMPTY or LARGE; flags of POINTER_FREE, LEADS, SAMPLED, NOT_ASKED."""

    kind: int
    processor: int
    flags: int
    address: int
    size: int
    stack: int


class Stack(NamedTuple):
    """Return addresses, the innermost first, and the address of the object's type."""

    number: int
    type: int
    frames: tuple[int, ...]
    cut: bool


class Told(NamedTuple):
    """A stack as it stands in the recording, without the frames that it shares with another."""

    number: int
    type: int
    frames: tuple[int, ...]
    shared: int
    other: int
    wide: bool
    cut: bool


class Begin(NamedTuple):
    ticket: int
    processor: int
    reason: int  # 0 the program's start, 1 a mark end, 2 a signal
    clock: int
    mark_ends: int
    processors: int
    rate: int


class Stop(NamedTuple):
    ticket: int
    processor: int
    clock: int


class MarkStart(NamedTuple):
    ticket: int
    processor: int
    clock: int
    live: int


class Counts(NamedTuple):
    """The runtime's own counters; kind is MARK_END or COUNTS (runtime.ReadMemStats)."""

    kind: int
    ticket: int
    processor: int
    mode: int
    generation: int
    clock: int
    collections: int
    live: int
    rate: int
    mallocs: int
    frees: int
    allocated: int
    freed: int
    heap_in_use: int
    stack_in_use: int
    released: int
    marked: int


class Sweep(NamedTuple):
    """A span is swept; bit i of `stays` is set where slot i keeps its object."""

    ticket: int
    processor: int
    address: int
    slots: int
    free_index: int
    before: int
    after: int
    span_class: int
    generation: int
    preserve: bool
    stays: int


class Pace(NamedTuple):
    ticket: int
    processor: int
    done: bool
    trigger: int
    live: int
    swept: int
    in_use: int
    distance: int


class Block(NamedTuple):
    """A processor's page cache; kind is PULL, DROP or BLOCK. `owner` is the processor whose it is."""

    kind: int
    ticket: int
    processor: int
    address: int
    free: int
    scavenged: int
    owner: int


class Run(NamedTuple):
    """A run of pages; kind is CUT, TAKE or GIVE (there, scavenged is 0)."""

    kind: int
    ticket: int
    processor: int
    address: int
    pages: int
    span_class: int
    use: int
    scavenged: int


class Growth(NamedTuple):
    ticket: int
    processor: int
    address: int
    bytes: int


class Scavenging(NamedTuple):
    """The scavenger's run; kind is LEND or SCAVENGED."""

    kind: int
    ticket: int
    processor: int
    address: int
    pages: int


class Cache(NamedTuple):
    ticket: int
    processor: int
    address: int
    span_class: int
    objects: int
    free_index: int
    slots: int


class Flush(NamedTuple):
    ticket: int
    processor: int
    owner: int
    mid_cycle: bool


class Processors(NamedTuple):
    ticket: int
    processor: int
    before: int
    after: int


class Span(NamedTuple):
    """A span in use where the recording begins later than the program; `cached` is a processor or None."""

    ticket: int
    processor: int
    address: int
    pages: int
    span_class: int
    use: int
    slots: int
    free_index: int
    objects: int
    cached: int | None
    occupied: int


class Pages(NamedTuple):
    """512 pages, there: which are not free, and which are scavenged."""

    ticket: int
    processor: int
    address: int
    taken: int
    scavenged: int
