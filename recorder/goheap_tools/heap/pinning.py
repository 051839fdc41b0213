"""Counts, at a mark end of a trace with its report, which spans are alive, how full they are and whose objects keep them.

docs/recording.md says what each number is ("Why memory did not come back").
"""

import argparse
import heapq
import itertools
from array import array
from collections import Counter
from typing import Any, Callable, Dict, FrozenSet, Hashable, Iterable, Iterator, List, NamedTuple, NoReturn, Optional, Sequence, Set, Tuple

from goheap_tools import tool
from goheap_tools.formats import companions
from goheap_tools.formats.frames import name_of, shown_frames
from goheap_tools.formats.report import MISSED, Report, report_in
from goheap_tools.formats.stacks import Memory, Stacks
from goheap_tools.formats.traces import REAL, Trace, trace_in
from goheap_tools.heap import pages, tiny
from goheap_tools.heap.classes import BASE, PAGE, SLOTS, slot_of
from goheap_tools.tool import Unusable

SOME = 1 << 14  # objects counted at a time
STEPS = 8  # of the histogram of how full spans are
NOWHERE = -1  # no span

# What a page is here: free with no memory behind it, free and backed, or not free.
UNBACKED, FREE, TAKEN = b"-", b"f", b"x"
AS_FREE = bytes.maketrans(bytes(range(pages.LENT + 1)), b"".join({pages.FREE: FREE, pages.UNTOUCHED: UNBACKED, pages.RELEASED: UNBACKED}.get(kind, TAKEN) for kind in range(pages.LENT + 1)))
# The backed pages that are in no span, and not free, of which a real run has some.
HELD, CACHED, LENT = "stacks and other uses", "page caches", "out to the scavenger"
OTHERS = {HELD: pages.HELD, CACHED: pages.CACHED, LENT: pages.LENT}


def others_of(now: pages.Pages) -> Dict[str, int]:
    """The backed pages that are free to nobody and in no span, by what they are: in a real run there are some."""
    return {name: sum(kind == one and not bare for one, bare in zip(now.kinds, now.scavenged)) if kind in now.kinds else 0 for name, kind in OTHERS.items()}


class Replay:
    """The pages as the journal's lines come."""

    def __init__(self, report: Report, version: int) -> None:
        self.report, self.version = report, version
        self.pages = pages.Pages(version=version)

    def go_on(self, cycle: int) -> None:
        """Takes the lines of the cycles before this one."""
        journal, now = self.report.journal, self.pages
        while now.lines < len(journal) and journal[now.lines].cycle < cycle:
            line = journal[now.lines]
            if why := now.misfit(line):
                self.refuse(why)
            now.go_on(line)
        if now.blocks and self.version < REAL:
            self.refuse("a block of a page cache is out as a cycle ends")

    def refuse(self, why: str) -> NoReturn:
        raise Unusable(f"{self.report.name}: line {len(self.report.addresses) + self.pages.lines + 1}: {why}")


def peak(report: Report, trace: Trace) -> int:
    """The first of the mark ends at which the most pages are backed."""
    replay, most, found = Replay(report, trace.version), -1, 1
    for mark_end in range(1, trace.mark_ends + 1):
        replay.go_on(mark_end)
        if replay.pages.backed > most:
            most, found = replay.pages.backed, mark_end
    return found


class Class:
    """What the spans of a size class come to. Step k of the eight, from 0, has the spans of which more than k eighths of the slots are live
    objects, and at most k + 1."""

    def __init__(self) -> None:
        self.spans = self.pages = self.objects = self.live = self.free = self.rounding = self.tails = 0
        self.steps = [0] * STEPS


class Filled:
    """How many slots live objects fill in each span, where some share one."""

    def __init__(self, leads: Sequence[int], spans: int) -> None:
        self.leads, self.seen = leads, bytearray(len(leads))
        self.used = [0] * spans

    def count(self, objects: List[int], spans: List[int]) -> None:
        for one, span in zip(objects, spans):
            lead = self.leads[one]
            if not self.seen[lead]:
                self.seen[lead] = 1
                self.used[span] += 1


class InGo(NamedTuple):
    """Bytes by the names of `runtime.MemStats`; `other` is what the runtime has of the heap beside objects and stacks: bitmaps and work buffers."""

    when: str
    heap_in_use: int
    stack_in_use: int
    heap_idle: int
    heap_released: int
    other: int


class Pins:
    """The heap at a mark end: behind the journal's lines of the cycles before it, and behind its sweep, which gives back each span of
    which nothing is marked. Of the spans that are kept, by rising page: first page, pages, span class, slots, bytes of a slot, live objects,
    slots that they fill (from version 3 on tiny ones share some), their bytes as asked for, and the stacks of the objects, sorted by span."""

    def __init__(self, trace: Trace, report: Report, mark_end: int) -> None:
        self.mark_end, self.mark_ends = mark_end, trace.mark_ends
        self.objects, self.behind = trace.born[mark_end - 1], len(trace.sizes) - trace.born[mark_end - 1]
        self.swept = {sweep.page: sweep.kept for sweep in report.sweeps if sweep.cycle == mark_end}
        replay = Replay(report, trace.version)
        replay.go_on(mark_end)
        self.backed, self.region = replay.pages.backed, replay.pages.kinds.translate(AS_FREE)
        self.kinds = bytes(replay.pages.kinds)  # before the sweep, as `pages` has them
        self.set_spans(replay.pages)
        self.before_sweep = sum(self.pages)  # pages of the spans that the mark end found
        self.others, self.held_pages = others_of(replay.pages), sum(replay.pages.held.values())
        self.memory: Optional[Memory] = None  # of a real run, where the stacks tell
        self.missed = self.missed_bytes = 0
        stacks = max(trace.stacks, default=-1) + 1
        self.own, self.live = array("Q", bytes(8 * stacks)), array("I", bytes(4 * stacks))  # bytes and objects by stack
        self.sort_stacks(*self.seat(trace, report))
        self.live_stacks = array("I", (stack for stack, live in enumerate(self.live) if live))
        self.compare(trace, report)
        self.drop_emptied()

    def set_spans(self, now: pages.Pages) -> None:
        self.first = sorted(now.spans)
        spans = [now.spans[page] for page in self.first]
        lines = [span.made for span in spans]
        self.pages = [span.pages for span in spans]
        self.span_class = [span.span_class for span in spans]
        self.slot = [SLOTS[one // 2] or pages * PAGE for one, pages in zip(self.span_class, self.pages)]
        self.slots = [pages * PAGE // slot for pages, slot in zip(self.pages, self.slot)]
        self.held = [0] * len(lines)
        self.asked = [0] * len(lines)

    def owners(self) -> List[int]:
        """The number of the span by page."""
        owners = [NOWHERE] * (len(self.region) + 1)
        for number, (page, count) in enumerate(zip(self.first, self.pages)):
            owners[page : page + count] = [number] * count
        return owners

    def seat(self, trace: Trace, report: Report) -> Tuple[array, array]:
        """Counts each marked object in its span. Returns the span and the stack of each."""
        addresses, owners = report.addresses, self.owners()
        leads = tiny.riders_of(trace, addresses).leads
        filled = Filled(leads, len(self.first)) if leads else None
        top = BASE + len(self.region) * PAGE
        spans_of, stacks_of = array("I"), array("I")
        marked = trace.marked(self.mark_end)
        while some := list(itertools.islice(marked, SOME)):
            places = [addresses[one] for one in some]
            if min(places) < BASE:
                some = self.placed(some, addresses, trace.sizes)
                places = [addresses[one] for one in some]
            if not some:
                continue
            if max(places) >= top:
                places = [min(place, top) for place in places]
            spans = [owners[place - BASE >> 13] for place in places]
            if min(spans) < 0:
                one = some[spans.index(NOWHERE)]
                raise Unusable(f"{report.name}: object {one} lives at mark end {self.mark_end}, but in no span: it is no report of this trace")
            stacks = [trace.stacks[one] for one in some]
            self.count(spans, stacks, [trace.sizes[one] for one in some])
            if filled:
                filled.count(some, spans)
            spans_of.extend(spans)
            stacks_of.extend(stacks)
        self.used = filled.used if filled else self.held[:]
        return spans_of, stacks_of

    def placed(self, some: List[int], addresses: Sequence[int], sizes: Sequence[int]) -> List[int]:
        """Those of the objects that have an address; counts those that found no room."""
        missed = [one for one in some if addresses[one] == MISSED]
        self.missed += len(missed)
        self.missed_bytes += sum(sizes[one] for one in missed)
        return [one for one in some if addresses[one] >= BASE]

    def count(self, spans: List[int], stacks: List[int], sizes: List[int]) -> None:
        """Counts objects by their spans and stacks."""
        held, asked, own, live = self.held, self.asked, self.own, self.live
        for span, size in zip(spans, sizes):
            held[span] += 1
            asked[span] += size
        for stack, size in zip(stacks, sizes):
            own[stack] += size
            live[stack] += 1

    def sort_stacks(self, spans_of: array, stacks_of: array) -> None:
        """Puts the stacks of a span's objects side by side."""
        self.begins = [0, *itertools.accumulate(self.held)]
        places = self.begins[:]
        self.sorted = array("I", bytes(4 * len(stacks_of)))
        for span, stack in zip(spans_of, stacks_of):
            at = places[span]
            places[span] = at + 1
            self.sorted[at] = stack

    def compare(self, trace: Trace, report: Report) -> None:
        """Refuses a report whose sweeps or spans say otherwise than the trace's marks."""
        for page, used, asked, slot, slots in zip(self.first, self.used, self.asked, self.slot, self.slots):
            if self.swept.get(page) != used:
                said = self.swept.get(page, "no sweep")
                raise Unusable(f"{report.name} says of the span at page {page} that mark end {self.mark_end} kept {said}, and by {trace.name} it kept {used}: it is no report of this trace")
            if used > slots or asked > used * slot:
                raise Unusable(f"{report.name}: the span at page {page} has no room for its {used} live objects of {asked} bytes: it is no report of this trace")
        if len(self.swept) > len(self.first):
            raise Unusable(f"{report.name}: mark end {self.mark_end} swept a span that is not there")

    def drop_emptied(self) -> None:
        """Gives back the spans of which nothing is marked."""
        self.emptied = [(page, count) for page, count, used in zip(self.first, self.pages, self.used) if not used]
        for page, count in self.emptied:
            self.region[page : page + count] = FREE * count
        kept = [number for number, used in enumerate(self.used) if used]
        self.begins = [self.begins[number] for number in kept] + self.begins[-1:]
        for name in ("first", "pages", "span_class", "slot", "slots", "asked", "held", "used"):
            column = getattr(self, name)
            setattr(self, name, [column[number] for number in kept])

    def stacks_of(self, span: int) -> array:
        """The stack of each live object of a span."""
        return self.sorted[self.begins[span] : self.begins[span + 1]]

    def in_go_s_words(self) -> List[InGo]:
        """What `runtime.MemStats` says of a real run, before the mark end's sweep and behind it; nothing where the stacks do not tell."""
        if self.memory is None:
            return []
        told, rows = self.memory, []
        for when, spans in (("before its sweep", self.before_sweep), ("behind it", sum(self.pages))):
            pages = spans, told.stacks, told.heap - spans - self.held_pages, told.heap - self.backed, self.held_pages - told.stacks
            rows.append(InGo(when, *(count * PAGE for count in pages)))
        return rows

    def holders(self) -> Iterator[FrozenSet[int]]:
        """For each span the stacks with live objects in it."""
        return (frozenset(self.stacks_of(span)) for span in range(len(self.first)))


    def sums(self) -> Dict[str, int]:
        """The parts of the backed bytes."""
        used = sum(used * slot for used, slot in zip(self.used, self.slot))
        slots = sum(slots * slot for slots, slot in zip(self.slots, self.slot))
        live, spans = sum(self.asked), sum(self.pages) * PAGE
        return {
            "live objects": live,
            "free slots": slots - used,
            "rounding": used - live,
            "tails": spans - slots,
            "free pages": self.region.count(FREE) * PAGE,
            **{name: count * PAGE for name, count in self.others.items() if count},
        }

    def classes(self) -> List[Tuple[int, Class]]:
        """What the spans of each size class come to, 0 for large objects."""
        rows = {}
        for span_class, pages, slots, slot, held, used, asked in zip(self.span_class, self.pages, self.slots, self.slot, self.held, self.used, self.asked):
            row = rows.setdefault(span_class // 2, Class())
            row.spans += 1
            row.pages += pages
            row.objects += held
            row.steps[(used * STEPS - 1) // slots] += 1
            row.live += asked
            row.free += (slots - used) * slot
            row.rounding += used * slot - asked
            row.tails += pages * PAGE - slots * slot
        return sorted(rows.items())

    def without(self, stacks: Set[int]) -> Tuple[int, int, int, int, int]:
        """What comes back if all objects of these stacks are gone: the spans, their pages, the longest run of free pages before and after, and
        the longest after in which a page of theirs is."""
        back = [span for span, holders in enumerate(self.holders()) if holders <= stacks]
        region = self.region[:]
        before = longest(region.split(TAKEN))
        for span in back:
            region[self.first[span] : self.first[span] + self.pages[span]] = b"b" * self.pages[span]
        free = region.split(TAKEN)
        return len(back), sum(self.pages[span] for span in back), before, longest(free), longest(run for run in free if b"b" in run)


def longest(some: Iterable[Any]) -> int:
    return max(map(len, some), default=0)


class Names:
    """The frames of the stacks, and by what they are put together."""

    def __init__(self, frames: Dict[int, List[str]]) -> None:
        self.frames, self.known = frames, {}

    def shown(self, stack: int) -> List[str]:
        if stack not in self.known:
            self.known[stack] = shown_frames(self.frames.get(stack, []))
        return self.known[stack]

    def same_frames(self, stack: int) -> Hashable:
        return tuple(self.frames.get(stack, ())) or stack

    def stacks(self, pins: Pins) -> "Groups":
        """The live stacks, those of the same frames as one."""
        return Groups(pins, self.frames and self.same_frames)

    def function(self, stack: int) -> str:
        return name_of(self.shown(stack)[0])

    def functions(self, stack: int) -> FrozenSet[str]:
        return frozenset(map(name_of, self.shown(stack)))

    def stacks_of(self, words: Iterable[str], count: int) -> Set[int]:
        """Of the numbers below `count` those that the words name: each with the others of the same frames, or all that a function is in."""
        keys, functions = set(), set()
        for word in words:
            if word.isdecimal():
                keys.add(self.same_frames(int(word)))
            elif any(word == name_of(frame) for frames in self.frames.values() for frame in frames):
                functions.add(word)
            else:
                raise Unusable(f"{word!r} is no stack's number" + (", and no stack has a function of this name" if self.frames else "; functions need --stacks"))
        return {
            stack
            for stack in range(count)
            if self.same_frames(stack) in keys or not functions.isdisjoint(map(name_of, self.frames.get(stack, ())))
        }


class Groups:
    """What the live stacks hold, in groups of those with one key, or each stack for itself; `keys` has the key of each group and `first` its
    least stack. A group pins the spans that have no object of another group, and shares those that have some of both."""

    def __init__(self, pins: Pins, key_of: Any) -> None:
        group_of = array("I", bytes(4 * len(pins.own)))
        if key_of:
            self.group(pins, key_of, group_of)
        else:
            self.first = pins.live_stacks
            self.keys: Sequence[Any] = self.first
            self.own, self.live = (array("Q", map(column.__getitem__, self.first)) for column in (pins.own, pins.live))
            for group, stack in enumerate(self.first):
                group_of[stack] = group
        self.pinned, self.spans, self.shared = (array("Q", bytes(8 * len(self.first))) for _ in range(3))
        self.mixed = self.mixed_spans = 0
        for pages, holders in zip(pins.pages, pins.holders()):
            self.count(pages * PAGE, {group_of[stack] for stack in holders})

    def group(self, pins: Pins, key_of: Callable[[int], Hashable], group_of: array) -> None:
        """Puts stacks of one key into one group."""
        known, self.first, self.own, self.live = {}, array("I"), array("Q"), array("Q")
        for stack in pins.live_stacks:
            group = group_of[stack] = known.setdefault(key_of(stack), len(known))
            if group == len(self.first):
                self.first.append(stack)
                self.own.append(0)
                self.live.append(0)
            self.own[group] += pins.own[stack]
            self.live[group] += pins.live[stack]
        self.keys = list(known)

    def count(self, size: int, groups: Set[int]) -> None:
        """Counts a span of these bytes in which these groups have objects."""
        if len(groups) > 1:
            self.mixed += size
            self.mixed_spans += 1
            for group in groups:
                self.shared[group] += size
        else:
            group = groups.pop()
            self.pinned[group] += size
            self.spans[group] += 1

    def order(self, most: int) -> List[int]:
        """The groups, the most pinned bytes first, then the most bytes of their own; at most so many."""
        groups = range(len(self.first))
        if most < len(groups):
            return heapq.nsmallest(most, groups, key=lambda at: (-self.pinned[at], -self.own[at], at))
        found = sorted(groups, key=self.own.__getitem__, reverse=True)
        found.sort(key=self.pinned.__getitem__, reverse=True)
        return found


def reach(pins: Pins, names_of: Any) -> Tuple[Counter, Counter]:
    """For each name the bytes of the live objects whose stack has it, and those of the spans all of whose objects are such."""
    own, pinned, known = Counter(), Counter(), {}
    for stack in pins.live_stacks:
        for name in names_of(stack):
            own[name] += pins.own[stack]
    for pages, holders in zip(pins.pages, pins.holders()):
        names = known.get(holders)
        if names is None:
            names = known[holders] = frozenset.intersection(*map(names_of, holders))
        for name in names:
            pinned[name] += pages * PAGE
    return own, pinned


def add_mark_end(parser: argparse.ArgumentParser) -> None:
    """The options that name a mark end."""
    parser.add_argument("--at", type=tool.number(1, 1_000_000), metavar="N", help="at mark end N (default: the last)")
    parser.add_argument("--peak", action="store_true", help="at the mark end with the most backed bytes, the first of them")


def pins_of(trace_path: str, report_path: str, options: argparse.Namespace, stacks: Stacks) -> Pins:
    """What a trace and its report come to at the mark end that the options name. `stacks` are those of the recording, or none."""
    if options.peak and options.at:
        raise Unusable("--at and --peak name two mark ends")
    trace = trace_in(trace_path)
    companions.of_trace(stacks, trace, (options.stacks, trace.name))
    count = trace.mark_ends
    if not count:
        raise Unusable(f"{trace.name} has no mark end, at which it would be known who lives")
    if (options.at or 0) > count:
        raise Unusable(f"{trace.name} has {count} mark ends, and no mark end {options.at}")

    report = report_in(report_path)
    if len(report.addresses) != len(trace.sizes):
        raise Unusable(f"{report.name} has {len(report.addresses)} objects, and {trace.name} has {len(trace.sizes)}: it is no report of this trace")
    pins = Pins(trace, report, peak(report, trace) if options.peak else options.at or count)
    pins.memory = stacks.memory(pins.mark_end)
    return pins
