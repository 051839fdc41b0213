"""What the objects of a report or a trace come to at each mark end, by what a table has a row for."""

import itertools
from array import array
from collections import Counter, defaultdict
from typing import Any, Callable, Dict, Iterable, Iterator, Optional, Sequence, Tuple

from goheap_tools.formats.report import MISSED, Bucket, Report
from goheap_tools.formats.traces import Trace
from goheap_tools.heap.estimate import factor
from goheap_tools.heap.tiny import Riders, riders_of, slot_in

# A mark end, with its buckets.
MarkEnd = Tuple[int, Iterable[Bucket]]


class Slots(dict):
    """The bytes of the slot of an object by its size and whether it has pointers; 0 where it has none."""

    def __init__(self, trace: Trace) -> None:
        super().__init__()
        self.trace = trace

    def __missing__(self, key: Tuple[int, int]) -> int:
        size, has_pointers = key
        self[key] = slot_in(self.trace, size, bool(has_pointers)) if size else 0
        return self[key]


def buckets_of_trace(trace: Trace, addresses: Optional[Sequence[int]] = None) -> Iterator[MarkEnd]:
    """Each mark end with the buckets that changed since the one before, as a profile at rate 1 has them: of objects that share a block the
    first one counts, as long as one of them lives."""
    lasts, riders = slot_lasts(trace, addresses)
    new, gone = defaultdict(Counter), defaultdict(Counter)
    slots, leads, mark_ends = Slots(trace), riders.leads, trace.mark_ends
    for one, (cycle, last, stack, *key) in enumerate(zip(trace.cycles(), lasts, trace.stacks, trace.sizes, trace.pointers)):
        slot = slots[tuple(key)]
        if slot and cycle < mark_ends and (not leads or leads[one] == one) and (addresses is None or addresses[one] > MISSED):
            bucket = stack, slot
            new[cycle + 1][bucket] += 1
            gone[last + 1][bucket] += 1
    allocs, frees = Counter(), Counter()
    for mark_end in range(1, trace.mark_ends + 1):
        allocs.update(new[mark_end])
        frees.update(gone[mark_end])
        yield mark_end, [Bucket(mark_end, stack, slot, allocs[stack, slot], frees[stack, slot]) for stack, slot in {**new[mark_end], **gone[mark_end]}]


def slot_lasts(trace: Trace, addresses: Optional[Sequence[int]]) -> Tuple[array, Riders]:
    """Of each object the last cycle in which something lives in the slot that it got; and the objects that got none, since they ride in the slot
    of another."""
    riders = riders_of(trace, addresses)
    lasts = trace.lasts()[:] if riders else trace.lasts()
    for one in riders:
        lead = riders.leads[one]
        lasts[lead] = max(lasts[lead], lasts[one])
    return lasts, riders


def buckets_of_report(report: Report) -> Iterator[MarkEnd]:
    """Each mark end with its buckets in the report."""
    in_order = sorted(report.buckets, key=lambda bucket: bucket.mark_end)
    return itertools.groupby(in_order, key=lambda bucket: bucket.mark_end)


class Row:
    """The objects of a line of the table as of the last mark end so far."""

    def __init__(self) -> None:
        self.allocs = self.frees = self.allocated = self.used = 0.0
        self.first = self.before = 0.0
        self.grew = 0

    def add(self, slot: int, allocs: float, frees: float) -> None:
        self.allocs += allocs
        self.frees += frees
        self.allocated += allocs * slot
        self.used += (allocs - frees) * slot

    def end_mark_end(self, is_first: bool) -> None:
        if is_first:
            self.first = self.used
        elif self.used > self.before + 0.5:
            self.grew += 1
        self.before = self.used

    def growth(self) -> float:
        return self.used - self.first


class Profile:
    """The rows of the table by their keys, over the mark ends."""

    def __init__(self, mark_ends: Iterable[MarkEnd], key_of: Callable[[Bucket], Any], rate: int, shows: Callable[[int], bool] = lambda _: True) -> None:
        self.rows = defaultdict(Row)
        self.cum = defaultdict(int)  # bytes in use by stack
        self.first = self.last = 0
        self.all = Row()  # what is not shown as well
        counts = {}
        for mark_end, buckets in mark_ends:
            self.first, self.last = self.first or mark_end, mark_end
            touched = set()
            for bucket in buckets:
                name = bucket.stack, bucket.slot
                allocs, frees = counts.get(name, (0, 0))
                counts[name] = bucket.allocs, bucket.frees
                times = factor(bucket.slot, rate)
                change = (bucket.allocs - allocs) * times, (bucket.frees - frees) * times
                self.all.add(bucket.slot, *change)
                if not shows(bucket.stack):
                    continue
                key = key_of(bucket)
                self.rows[key].add(bucket.slot, *change)
                self.cum[bucket.stack] += (change[0] - change[1]) * bucket.slot
                touched.add(key)
            for key in touched:
                self.rows[key].end_mark_end(mark_end == self.first)
