"""Which objects of a trace share blocks of 16 bytes, from version 3 on (`docs/tiny-objects.md`): leads, and what rides in their blocks."""

import heapq
import itertools
from array import array
from collections.abc import Mapping
from typing import Dict, Iterable, Iterator, NamedTuple, Optional, Sequence, Tuple

from goheap_tools.formats.report import MISSED
from goheap_tools.formats.traces import Trace
from goheap_tools.heap.classes import slot_of

BLOCK = 16
FIRST_VERSION = 3


class Rider(NamedTuple):
    """Where an object stands that rides: in the block of this object, behind so many bytes."""

    lead: int
    offset: int


def is_tiny(version: int, size: int, has_pointers: bool) -> bool:
    return version >= FIRST_VERSION and not has_pointers and 0 < size < BLOCK


def size_in(version: int, size: int, has_pointers: bool) -> int:
    """The bytes that an object asks of a span, if it does not ride."""
    return BLOCK if is_tiny(version, size, has_pointers) else size


def slot_in(trace: Trace, size: int, has_pointers: bool) -> int:
    """The bytes of the slot that such an object of the trace takes, if it does not ride."""
    return slot_of(size_in(trace.version, size, has_pointers))


class Blocks:
    """The current block of each processor: its lead and how many of its bytes are used."""

    def __init__(self) -> None:
        self.current: Dict[int, Tuple[Optional[int], int]] = {}

    def forget(self, proc: Optional[int] = None) -> None:
        """A mark end comes, or this processor is flushed."""
        if proc is None:
            self.current.clear()
        else:
            self.current.pop(proc, None)

    def take(self, one: int, proc: int, size: int, is_placed: bool) -> Optional[Rider]:
        """Takes a tiny object in, which a lead may have no room for. Returns where it rides, or nothing where it leads."""
        lead, offset = self.current.get(proc, (None, BLOCK))
        step = size & -size
        start = -(-offset // step) * step
        if lead is not None and start + size <= BLOCK:
            self.current[proc] = lead, start + size
            return Rider(lead, start)
        if is_placed and (lead is None or size < offset):
            self.current[proc] = one, size
        return None


def ends(trace: Trace) -> Iterable[Tuple[int, Optional[int]]]:
    """Before which objects blocks are forgotten, in their order, and whose: a processor's at its flush, and all at a mark end."""
    return heapq.merge(((born, None) for born in trace.born), trace.flushes, key=lambda end: end[0])


def riding(trace: Trace, addresses: Optional[Sequence[int]]) -> Iterator[Tuple[int, Rider]]:
    """The objects that ride, in their order, with where."""
    blocks, at = Blocks(), 0
    for end, proc in itertools.chain(ends(trace), [(len(trace.sizes), None)]):
        some = slice(at, end)
        for one, size, has_pointers, of in zip(range(at, end), trace.sizes[some], trace.pointers[some], trace.procs[some]):
            if 0 < size < BLOCK and not has_pointers:
                rider = blocks.take(one, of, size, addresses is None or addresses[one] > MISSED)
                if rider:
                    yield one, rider
        blocks.forget(proc)
        at = end


class Riders(Mapping):
    """The objects that ride, in their order, with where. Of each object `leads` has the one that got the slot in which it stands; it has none where
    each object has a slot of its own, before version 3."""

    def __init__(self, trace: Optional[Trace] = None, addresses: Optional[Sequence[int]] = None) -> None:
        self.leads, self.offsets, self.count = array("I"), bytearray(), 0
        if trace and trace.version >= FIRST_VERSION:
            self.leads.extend(range(len(trace.sizes)))
            self.offsets.extend(bytes(len(trace.sizes)))
            for one, (lead, offset) in riding(trace, addresses):
                self.leads[one], self.offsets[one] = lead, offset
                self.count += 1

    def __contains__(self, one: object) -> bool:
        return isinstance(one, int) and one < len(self.leads) and self.leads[one] != one

    def __getitem__(self, one: int) -> Rider:
        if one not in self:
            raise KeyError(one)
        return Rider(self.leads[one], self.offsets[one])

    def __iter__(self) -> Iterator[int]:
        return (one for one, lead in enumerate(self.leads) if lead != one)

    def __len__(self) -> int:
        return self.count


def riders_of(trace: Trace, addresses: Optional[Sequence[int]] = None) -> Riders:
    """The objects that ride. `addresses` are those of the report; without it all leads are placed."""
    return Riders(trace, addresses)
