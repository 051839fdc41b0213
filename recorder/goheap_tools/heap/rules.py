"""The nine rules of `docs/sound-report.md`, plainly: which one a report breaks first, at which of its lines, and why, in sentences. Of a
trace of version 3 they are those of its base, in which a lead has 16 bytes and what rides has none, and a tenth rule is of what rides
(`docs/tiny-objects.md`).

A report's lines are numbered from 1: the answers, the journal, the sweeps, the totals, the profile, and `end`. The rules are tried in
their order, and of a rule the first line that breaks it is told. `docs/judge.md` has which line breaks which rule.
"""

import itertools
from array import array
from bisect import bisect_left
from collections import Counter, defaultdict
from typing import Dict, Iterator, List, NamedTuple, Optional, Set, Tuple

from goheap_tools import progress
from goheap_tools.formats.journal import MAKING_LINES, Give, Miss, journal_text, line_text
from goheap_tools.formats.report import ZERO, Bucket, Report, Sweep
from goheap_tools.formats.traces import REAL, Trace
from goheap_tools.heap.classes import BASE, PAGE, SLOTS
from goheap_tools.heap.judged import NONE, Judged, Life, class_name
from goheap_tools.heap.pages import CHUNK
from goheap_tools.heap.region import Region
from goheap_tools.heap.tiny import BLOCK

NAMES = {1: "answers", 2: "journal", 3: "misses", 4: "places", 5: "apart", 6: "filling", 7: "sweeps", 8: "totals", 9: "profile", 10: "riders"}


class Fault(NamedTuple):
    """The first rule that a report breaks, and the first line that breaks it."""

    rule: int
    line: int
    sentences: List[str]


# Rule 1, answers.


def answers(judged: Judged) -> Optional[Fault]:
    """One answer for each object, `zero` exactly for size 0."""
    events, addresses = judged.trace.events, judged.report.addresses
    for one, address in enumerate(addresses):
        if one >= len(events):
            return Fault(1, one + 1, [f"The trace has {len(events)} objects, 0 to {len(events) - 1}, so no object has the number {one}." if events else "The trace has no object.",
                                      "There is to be one `o` line for each `a` line of the trace."])  # fmt: skip
        if (address == ZERO) != (judged.trace.sizes[one] == 0):
            what = "has size 0, so `zero` should stand there" if events[one].size == 0 else f"has {events[one].size} bytes, so an address or a miss should stand there, and not `zero`"
            return Fault(1, one + 1, [f"{judged.object_text(one)}. It {what}."])
    if len(addresses) < len(events):
        missing = len(addresses)
        return Fault(1, judged.end, [f"The trace has {len(events)} objects, and the report answers {len(addresses)} of them.", f"{judged.object_text(missing)}, and has no `o` line."])
    return None


# Rule 2, journal.


def journal(judged: Judged) -> Optional[Fault]:
    """The journal is one that the pages and page caches can have, no line is of a cycle behind the last, and before version 4 each block is
    dropped."""
    region = Region(judged.trace.header, judged.trace.version)
    cycle, taken = 0, {}
    for number, line in enumerate(judged.report.journal):
        sentences = None
        if line.cycle < cycle:
            sentences = [f"The journal's cycles never fall: the line before is of cycle {cycle}, and this one of cycle {line.cycle}."]
        elif line.cycle > judged.last:
            sentences = [f"The trace has {judged.last} mark ends, so its last cycle is {judged.last}, and this line is of cycle {line.cycle}."]
        else:
            sentences = region.fault(line)
        if sentences:
            return Fault(2, judged.journal_line(number), [f"With {journal_text(number, line)} the journal is none that the pages can have.", *sentences])
        region.go_on(line)
        cycle = line.cycle
        if isinstance(line, MAKING_LINES):
            taken[line.page] = len(judged.lives)
            judged.lives.append(Life(number, line.page, line.pages, line.span_class, line.cycle, None, float("inf")))
        elif isinstance(line, Give):
            at = taken.pop(line.page)
            judged.lives[at] = judged.lives[at]._replace(given=number, end=line.cycle)
    for proc, block in [] if judged.trace.version >= REAL else sorted(region.blocks.items()):
        return Fault(2, judged.end, [f"The block at page {block.page}, which processor {proc} pulled, is never dropped: `drop {proc} {block.page} {block.count()}` should stand in the journal."])
    return None


# Rule 3, misses.


def misses(judged: Judged) -> Optional[Fault]:
    """A missed object names a Miss line of its pages, span class and cycle, and no two name one line."""
    lines, named = judged.report.journal, {}
    for one, number in judged.report.misses.items():
        if one in judged.riders:
            continue
        need, cycle = judged.need(one), judged.cycles[one]
        asked = Miss(cycle, need.pages, need.span_class)
        found = lines[number] if number < len(lines) else None
        said = [f"{judged.object_text(one)}, and found no room. It names journal line {number}."]
        if found != asked:
            what = f"That is {judged.journal(number)}" if found else f"The journal has {len(lines)} lines, so there is none of that number"
            same = [other for other, line in enumerate(lines) if line == asked]
            where = f"Such lines are {', '.join(judged.journal(other) for other in same[:3])}." if same else "The journal has no such line."
            return Fault(3, one + 1, [*said, f"{what}.", f"The line should be a miss of its cycle, pages and span class: `j {number} {cycle} {line_text(asked)}`. {where}"])
        if number in named:
            return Fault(3, one + 1, [*said, f"That is {judged.journal(number)}, which object {named[number]} (line {named[number] + 1}) names already: each missed object has a line of its own."])
        named[number] = one
    return None


# Rule 4, places.


def why_no_seat(judged: Judged, one: int, life: Optional[Life]) -> List[str]:
    """Why the object does not sit in the life that its page is in as its cycle ends."""
    need, address = judged.need(one), judged.report.addresses[one]
    wants = f"It needs a slot of a span for {class_name(need.span_class)}, of {need.pages} pages"
    if life is None:
        page, pages = (address - BASE) // PAGE, judged.trace.header["chunks"] * CHUNK
        if not 0 <= page < pages:
            return [f"Its address {address:#x} is not in the region, which goes from {BASE:#x} up to {BASE + pages * PAGE:#x}.", f"{wants}."]
        past = [other for other in judged.lives if other.page <= page < other.page + other.pages]
        there = f"There was {judged.life_text(past[0])}." if past else "No span was ever there."
        return [f"Its address {address:#x} is in page {page}, which is in no span as cycle {judged.cycles[one]} ends. {there}", f"{wants}."]
    here = f"Its address {address:#x} is in {judged.life_text(life)}."
    if (life.span_class, life.pages) != (need.span_class, need.pages):
        return [here, f"{wants}."]
    index, rest = divmod(address - BASE - life.page * PAGE, need.slot)
    if rest:
        return [here, f"That is {rest} bytes behind the beginning of slot {index}: {judged.seat_address(life, index):#x} should stand there, or another slot's beginning."]
    if index >= need.slots:
        return [here, f"The span has {need.slots} slots, 0 to {need.slots - 1}, and this would be slot {index}."]
    return [here, f"The object {judged.lifetime(one)}, and its span is given back in cycle {life.end}."]


class Owners:
    """The numbers of the lives by their pages, and of the open ones by their first pages, as the cycles end."""

    def __init__(self, judged: Judged) -> None:
        self.judged, self.at, self.made = judged, 0, 0
        self.owner = array("i", [NONE]) * (judged.trace.header["chunks"] * CHUNK)
        self.open: Dict[int, int] = {}

    def end_cycle(self, cycle: int) -> None:
        """Takes the journal's lines of the cycles up to this one."""
        journal = self.judged.report.journal
        while self.at < len(journal) and journal[self.at].cycle <= cycle:
            line = journal[self.at]
            if isinstance(line, MAKING_LINES):
                self.owner[line.page : line.page + line.pages] = array("i", [self.made]) * line.pages
                self.open[line.page] = self.made
                self.made += 1
            elif isinstance(line, Give):
                self.owner[line.page : line.page + line.pages] = array("i", [NONE]) * line.pages
                del self.open[line.page]
            self.at += 1

    def of(self, address: int) -> int:
        """The number of the life in which the address is, or NONE."""
        page = (address - BASE) // PAGE
        return self.owner[page] if 0 <= page < len(self.owner) else NONE


def index_of(judged: Judged, one: int, life: Life) -> int:
    """The index of the object's seat in this life, or NONE."""
    need = judged.needs[judged.kinds[one]]
    if life.span_class != need.span_class or life.pages != need.pages or life.end <= judged.lasts[one]:
        return NONE
    index, rest = divmod(judged.report.addresses[one] - BASE - life.page * PAGE, need.slot)
    return NONE if rest or index >= need.slots else index


def places(judged: Judged) -> Optional[Fault]:
    """A placed object sits in exactly one life, which is not given back while the object lives."""
    count = len(judged.trace.sizes)
    judged.seats, judged.indexes = array("i", [NONE]) * count, array("H", [0]) * count
    owners, before, addresses = Owners(judged), NONE, judged.report.addresses
    for one in judged.placed_ones():
        if judged.cycles[one] != before:
            before = judged.cycles[one]
            owners.end_cycle(before)
        number = owners.of(addresses[one])
        index = NONE if number == NONE else index_of(judged, one, judged.lives[number])
        if index == NONE:
            life = None if number == NONE else judged.lives[number]
            return Fault(4, one + 1, [f"{judged.object_text(one)}, and sits in no span.", *why_no_seat(judged, one, life)])
        judged.seats[one], judged.indexes[one] = number, index
    return None


# Rule 5, apart.


def slots_of(judged: Judged, number: int, value: int) -> array:
    """A number for each slot of a life."""
    life = judged.lives[number]
    return array("i", [value]) * (life.pages * PAGE // judged.slot(life))


def apart(judged: Judged) -> Optional[Fault]:
    """Objects that live in one cycle do not overlap. By rule 4 two overlap exactly where they have one seat."""
    holders: List[Optional[array]] = [None] * len(judged.lives)
    for one in judged.placed_ones():
        number, index = judged.seats[one], judged.indexes[one]
        held = holders[number]
        if held is None:
            held = holders[number] = slots_of(judged, number, NONE)
        before = held[index]
        if before != NONE and judged.lasts[before] >= judged.cycles[one]:
            life = judged.lives[number]
            return Fault(5, one + 1, [
                f"{judged.object_text(one)}, at {judged.address_text(one)}.",
                f"{judged.object_text(before)}, at {judged.address_text(before)} (line {before + 1}), and {judged.lifetime(before)}: it is still alive then.",
                f"Both fill the {judged.slot(life)} bytes of slot {index} of {judged.life_text(life)}."])  # fmt: skip
        held[index] = one
    return None


# Rule 6, filling.


class Filling:
    """How a small life is filled in the cycle so far."""

    def __init__(self, until: array) -> None:
        self.until = until  # by index, the last cycle of an object there
        self.cycle = self.proc = NONE
        self.low = self.first = self.flushes = 0  # whose it is, by which object, and how often the processor was flushed before that

    def begin(self, cycle: int) -> None:
        if self.cycle != cycle:
            self.cycle, self.low, self.proc = cycle, 0, NONE

    def free(self, limit: int) -> int:
        """The lowest index below the limit that nobody holds, or NONE."""
        low, until, cycle = self.low, self.until, self.cycle
        while low < limit and until[low] >= cycle:
            low += 1
        self.low = low
        return low if low < limit else NONE


class Caches:
    """The spans that processors have as objects come, which a flush lets go."""

    def __init__(self, trace: Trace) -> None:
        self.flushes, self.at = trace.flushes, 0
        self.counts = Counter()
        self.current, self.cycle = defaultdict(dict), 0  # by processor and span class

    def come(self, one: int, cycle: int) -> None:
        """The object comes, behind the flushes before it."""
        if cycle != self.cycle:
            self.current.clear()
            self.cycle = cycle
        while self.at < len(self.flushes) and self.flushes[self.at].before <= one:
            proc = self.flushes[self.at].proc
            self.counts[proc] += 1
            self.current.pop(proc, None)
            self.at += 1


def owner_fault(judged: Judged, one: int, state: Filling, caches: Caches) -> Optional[List[str]]:
    """Why an object may not come into a life that another processor fills, or nothing."""
    proc = judged.trace.procs[one]
    if state.proc in (NONE, proc) or caches.counts[state.proc] > state.flushes:
        return None
    at = f"object {state.first} at {judged.address_text(state.first)} (line {state.first + 1})"
    flush = ", and not flushed since" if judged.trace.version >= REAL else ""
    return [f"In that cycle the span is filled by processor {state.proc}{flush}: {at} is there. A span has one processor in a cycle, and this object is of processor {proc}."]


def gap_fault(judged: Judged, one: int, life: Life, gap: int) -> List[str]:
    """That a lower slot is free."""
    address = judged.seat_address(life, gap)
    return [f"Slot {gap} of the span, at {address:#x}, is free as the object comes, and a span is filled from its lowest free slot: `o {one} {address:#x}` should stand there."]


def left_fault(judged: Judged, one: int, left: Life, gap: int) -> List[str]:
    """That the processor left a life that is not full."""
    return [f"Its processor left {judged.life_text(left)}, in this cycle, while slot {gap} there is free: a span is full before its processor goes on"
            f" to another. `o {one} {judged.seat_address(left, gap):#x}` should stand there."]  # fmt: skip


def filling(judged: Judged) -> Optional[Fault]:
    """In a cycle a small life has one processor, is filled from its lowest free index, and is full before its processor goes on, unless the
    processor is flushed."""
    lives: Dict[int, Filling] = {}
    caches, procs, seats, indexes = Caches(judged.trace), judged.trace.procs, judged.seats, judged.indexes
    for one in judged.placed_ones():
        number = seats[one]
        span_class = judged.lives[number].span_class
        if span_class < 2:
            continue
        cycle, proc, index = judged.cycles[one], procs[one], indexes[one]
        state = lives.get(number)
        if state is None:
            state = lives[number] = Filling(slots_of(judged, number, NONE))
        state.begin(cycle)
        caches.come(one, cycle)
        left = caches.current[proc].get(span_class, number)
        sentences = fill_fault(judged, one, state, caches, lives[left], left) if state.proc != proc or state.low < index or left != number else None
        if sentences:
            life = judged.lives[number]
            return Fault(6, one + 1, [f"{judged.object_text(one)}, at {judged.address_text(one)}: slot {index} of {judged.life_text(life)}.", *sentences])
        caches.current[proc][span_class] = number
        if state.proc != proc or state.flushes != caches.counts[proc]:
            state.proc, state.first, state.flushes = proc, one, caches.counts[proc]
        state.until[index] = max(state.until[index], judged.lasts[one])
    return None


def fill_fault(judged: Judged, one: int, state: Filling, caches: Caches, before: Filling, left: int) -> Optional[List[str]]:
    """Why the object may not come into its life: by its processor, by a lower slot, or by the life `left` that its processor had before."""
    number, index = judged.seats[one], judged.indexes[one]
    if sentences := owner_fault(judged, one, state, caches):
        return sentences
    gap = state.free(index)
    if gap != NONE:
        return gap_fault(judged, one, judged.lives[number], gap)
    gap = NONE if left == number else before.free(judged.need(one).slots)
    return None if gap == NONE else left_fault(judged, one, judged.lives[left], gap)


# Rule 7, sweeps.


def counts_of_sweeps(judged: Judged) -> Iterator[Tuple[int, Counter, Counter]]:
    """For each mark end, by lives: how many objects it marks, and how many that lived before it it does not."""
    born, died = defaultdict(Counter), defaultdict(Counter)
    for (cycle, last, number), count in Counter(zip(judged.cycles, judged.lasts, judged.seats)).items():
        if number != NONE:
            born[cycle + 1][number] += count
            died[last + 1][number] += count
    alive = Counter()
    for mark_end in range(1, judged.last + 1):
        alive.update(born[mark_end])
        alive.subtract(died[mark_end])
        yield mark_end, alive, died[mark_end]


def objects_of(judged: Judged, life: Life, mark_end: int, is_kept: bool) -> str:
    """Some of a life's objects that the mark end keeps, or that it frees."""
    last = (lambda one: judged.lasts[one] >= mark_end) if is_kept else (lambda one: judged.lasts[one] == mark_end - 1)
    number = judged.lives.index(life)
    found = [one for one, seat in enumerate(judged.seats) if seat == number and judged.cycles[one] < mark_end and last(one)]
    more = f" and {len(found) - 3} more" if len(found) > 3 else ""
    names = [judged.kept_text(one, mark_end) if is_kept else str(one) for one in found[:3]]
    return f" (object{'s' if len(found) > 1 else ''} {', '.join(names)}{more})" if found else ""


def give_fault(judged: Judged) -> Optional[Fault]:
    """The first Give of a life that its mark end did not find alive, or whose sweep does not print that nothing was kept."""
    printed = {(sweep.cycle, sweep.page): at for at, sweep in reversed(list(enumerate(judged.report.sweeps)))}
    empty = {(sweep.cycle, sweep.page) for sweep in judged.report.sweeps if sweep.kept == 0}
    for given, life in sorted((life.given, life) for life in judged.lives if life.given is not None):
        said = [f"With {journal_text(given, judged.report.journal[given])} {judged.life_text(life)}, goes."]
        line = judged.journal_line(given)
        if life.cycle == life.end:
            return Fault(7, line, [*said, f"A span is given back by the sweep of a later mark end: none found this one alive, which began in cycle {life.cycle}."])
        if (life.end, life.page) not in empty:
            at = printed.get((life.end, life.page))
            if at is None:
                return Fault(7, line, [*said, f"Its sweep of cycle {life.end} is to print that nothing was kept, and there is no line `s {life.end} {life.page} ..`."])
            sweep = judged.report.sweeps[at]
            return Fault(7, line, [*said, f"Its sweep prints that {sweep.kept} were kept: `s {sweep.cycle} {sweep.page} {sweep.kept} {sweep.freed}` (line {judged.starts[2] + at})."
                                   " A span goes back only where nothing of it is kept."])  # fmt: skip
    return None


def sweep_fault(judged: Judged, sweep: Sweep, line: int, number: int, kept: int, freed: int, used: Set[Tuple[int, int]]) -> Optional[Fault]:
    """Why a sweep is not right, or nothing."""
    if number == NONE:
        return Fault(7, line, [f"As mark end {sweep.cycle} came, no span began at page {sweep.page}, so there was none to sweep."])
    life = judged.lives[number]
    said = f"The sweep is of {judged.life_text(life)}."
    if (sweep.kept, sweep.freed) != (kept, freed):
        return Fault(7, line, [said, f"Of its objects mark end {sweep.cycle} marks {kept}{objects_of(judged, life, sweep.cycle, True)}, and {freed} that lived before it it does not"
                               f"{objects_of(judged, life, sweep.cycle, False)}: `s {sweep.cycle} {sweep.page} {kept} {freed}` should stand there."])  # fmt: skip
    if not kept and life.end > sweep.cycle and (number, sweep.cycle) not in used:
        return Fault(7, line, [said, f"Nothing of it is kept, so it is to be given back in cycle {sweep.cycle}, or an object of that cycle placed in it. Neither is so."])
    return None


def sweeps(judged: Judged) -> Optional[Fault]:
    """Each life that a mark end finds alive has one line of the cycle behind it, and is given back where nothing is kept."""
    if fault := give_fault(judged):
        return fault
    used = set(zip(judged.seats, judged.cycles))
    notes, at = judged.report.sweeps, 0
    counted = counts_of_sweeps(judged)
    missing, owners = None, Owners(judged)
    for mark_end in range(1, judged.last + 1):
        owners.end_cycle(mark_end - 1)
        _, kept, freed = next(counted)
        alive = owners.open
        seen = set()
        while at < len(notes) and notes[at].cycle <= mark_end:
            sweep = notes[at]
            number = alive.get(sweep.page, NONE) if sweep.cycle == mark_end else NONE
            if fault := sweep_fault(judged, sweep, judged.starts[2] + at, number, kept[number], freed[number], used):
                return fault
            seen.add(sweep.page)
            at += 1
        if missing is None and len(seen) < len(alive):
            page = min(page for page in alive if page not in seen)
            missing = mark_end, judged.lives[alive[page]], kept[alive[page]], freed[alive[page]]
    if at < len(notes):
        return sweep_fault(judged, notes[at], judged.starts[2] + at, NONE, 0, 0, used)
    if missing:
        mark_end, life, *counts = missing
        should = f"s {mark_end} {life.page} {counts[0]} {counts[1]}"
        return Fault(7, judged.end, [f"Mark end {mark_end} found {judged.life_text(life)}.", f"It has no sweep: `{should}` should stand among the `s` lines."])
    return None


# Rule 8, totals.


def totals(judged: Judged) -> Optional[Fault]:
    """Each size class with placed objects has one line, with how many were placed and how many of them do not live in the last cycle."""
    mallocs, frees = Counter(), Counter()
    for (kind, last, is_placed), count in Counter(zip(judged.kinds, judged.lasts, judged.placed)).items():
        if is_placed:
            size_class = judged.needs[kind].span_class // 2
            mallocs[size_class] += count
            frees[size_class] += count * (last < judged.last)
    name = lambda size_class: f"size class {size_class}, {f'of {SLOTS[size_class]} bytes' if size_class else 'that of large objects'}" if size_class < len(SLOTS) else f"size class {size_class}, which there is not"
    for at, (size_class, allocated, freed) in enumerate(judged.report.totals):
        if (allocated, freed) != (mallocs[size_class], frees[size_class]) or not allocated:
            should = f"`t {size_class} {mallocs[size_class]} {frees[size_class]}` should stand there" if mallocs[size_class] else "there should be no such line"
            return Fault(8, judged.starts[3] + at, [f"Of {name(size_class)}, {mallocs[size_class]} objects are placed, and {frees[size_class]} of them do not live in the last cycle, {judged.last}: {should}."])
    told = {size_class for size_class, _, _ in judged.report.totals}
    for size_class in sorted(mallocs):
        if size_class not in told:
            return Fault(8, judged.end, [f"Of {name(size_class)}, {mallocs[size_class]} objects are placed, and no line tells so: `t {size_class} {mallocs[size_class]} {frees[size_class]}` should stand among the `t` lines."])
    return None


# Rule 9, profile.


class Words:
    """The 32-bit words of PCG XSH RR 64/32 for a state and a stream, by which samples are drawn."""

    def __init__(self, state: int, stream: int) -> None:
        self.increment = stream * 2 + 1
        self.state = state + self.increment
        self.step()

    def step(self) -> None:
        self.state = (self.state * 6364136223846793005 + self.increment) % 2**64

    def next(self) -> int:
        old = self.state
        self.step()
        mixed, turn = (((old >> 18) ^ old) >> 27) % 2**32, old >> 59
        return (mixed >> turn | mixed << (-turn % 32)) % 2**32


def samples(judged: Judged) -> Iterator[int]:
    """The placed objects that their processors' countdowns sample."""
    rate, seed = judged.trace.header["rate"], judged.trace.header["seed"]
    if rate == 1:
        # each byte is a sample's, and so is each object
        yield from judged.placed_ones()
        return
    countdowns: Dict[int, Tuple[int, Words]] = {}
    for one in judged.placed_ones() if rate else ():
        proc = judged.trace.procs[one]
        if proc not in countdowns:
            words = Words(seed, proc)
            countdowns[proc] = 1 + words.next() % (2 * rate - 1), words
        left, words = countdowns[proc]
        slot = judged.need(one).slot
        if slot < left:
            countdowns[proc] = left - slot, words
        else:
            countdowns[proc] = 1 + words.next() % (2 * rate - 1), words
            yield one


class Histories:
    """The numbers of each bucket as of each mark end: how many samples are of an earlier cycle, and how many lived last in one. Of each sample
    two numbers are kept in order, its bucket's with its first and with its last cycle, so that a count is the distance of two places."""

    CYCLE_BITS = 24

    def __init__(self, judged: Judged) -> None:
        self.numbers: Dict[Tuple[int, int], int] = {}
        slots = [need.slot for need in judged.needs]
        allocs, frees = array("Q"), array("Q")
        for one in samples(judged):
            bucket = judged.trace.stacks[one], slots[judged.kinds[one]]
            number = self.numbers.setdefault(bucket, len(self.numbers)) << self.CYCLE_BITS
            allocs.append(number | judged.cycles[one])
            frees.append(number | judged.lasts[one])
        self.buckets = list(self.numbers)
        self.sides = array("Q", sorted(allocs)), array("Q", sorted(frees))

    def at(self, bucket: Tuple[int, int], mark_end: int) -> Tuple[int, int]:
        """The bucket's allocs and frees."""
        number = self.numbers.get(bucket)
        if number is None:
            return 0, 0
        first = number << self.CYCLE_BITS
        allocs, frees = (bisect_left(side, first | mark_end) - bisect_left(side, first) for side in self.sides)
        return allocs, frees

    def due(self, each: bool, last: int) -> Iterator[Tuple[int, Tuple[int, int]]]:
        """The mark ends at which buckets are to have a line, with these."""
        for side in self.sides:
            for key, _ in itertools.groupby(side):
                number, cycle = divmod(key, 1 << self.CYCLE_BITS)
                if cycle < last:
                    yield last, self.buckets[number]
                    if each and cycle + 1 < last:
                        yield cycle + 1, self.buckets[number]


def profile_line_fault(judged: Judged, histories: Histories, at: int, line: Bucket, each: bool) -> Optional[Fault]:
    """Why a line of the profile is not right, or nothing."""
    bucket, place = (line.stack, line.slot), judged.starts[4] + at
    what = f"stack {line.stack} and slots of {line.slot} bytes"
    form = "each mark end" if each else "the last one"
    if not judged.last:
        return Fault(9, place, ["Without a mark end there is no profile, and no `p` line."])
    if line.mark_end != judged.last and not (each and 1 <= line.mark_end < judged.last):
        return Fault(9, place, [f"The profile is of the form of {form}, by its first line, and the mark ends are 1 to {judged.last}: no line of mark end {line.mark_end} should stand there."])
    allocs, frees = histories.at(bucket, line.mark_end)
    if (line.allocs, line.frees) != (allocs, frees) or not allocs:
        should = f"`p {line.mark_end} {line.stack} {line.slot} {allocs} {frees}` should stand there" if allocs else "there should be no such line"
        return Fault(9, place, [f"Of {what}, {allocs} objects of the cycles before mark end {line.mark_end} are sampled at rate {judged.trace.header['rate']},"
                                f" and it does not mark {frees} of them: {should}."])  # fmt: skip
    if each and line.mark_end < judged.last and histories.at(bucket, line.mark_end - 1) == (allocs, frees):
        return Fault(9, place, [f"Of {what} the two numbers are those as of mark end {line.mark_end - 1}, so that mark end {line.mark_end} has no line of them."])
    return None


def profile(judged: Judged) -> Optional[Fault]:
    """Each line tells of a stack and a slot size how many objects were sampled before a mark end, and how many of them it does not mark."""
    histories, lines = Histories(judged), judged.report.buckets
    each = bool(lines) and lines[0].mark_end < judged.last
    for at, line in enumerate(lines):
        if fault := profile_line_fault(judged, histories, at, line, each):
            return fault
    told = {(line.mark_end, (line.stack, line.slot)) for line in lines}
    missing = min((one for one in histories.due(each, judged.last) if one not in told), default=None)
    if missing:
        mark_end, bucket = missing
        allocs, frees = histories.at(bucket, mark_end)
        return Fault(9, judged.end, [f"Of stack {bucket[0]} and slots of {bucket[1]} bytes, {allocs} objects of the cycles before mark end {mark_end} are sampled, and {frees} of them freed:"
                                     f" `p {mark_end} {bucket[0]} {bucket[1]} {allocs} {frees}` should stand among the `p` lines."])  # fmt: skip
    return None


# Rule 10, riders.


def riders(judged: Judged) -> Optional[Fault]:
    """What rides stands in the block of its lead, at its offset."""
    for one, (lead, offset) in judged.riders.items():
        should = judged.report.addresses[lead] + offset
        if judged.report.addresses[one] != should:
            return Fault(10, one + 1, [f"{judged.object_text(one)}. It rides in the block of object {lead} (line {lead + 1}), which stands at {judged.address_text(lead)} and had room behind {offset}"
                                       f" of its {BLOCK} bytes: `o {one} {should:#x}` should stand there."])  # fmt: skip
    return None


RULES = (answers, journal, misses, places, apart, filling, sweeps, totals, profile, riders)


def first_fault(trace: Trace, report: Report, frames: Optional[Dict[int, List[str]]] = None) -> Optional[Fault]:
    """The first rule that the report breaks, with its line and why; nothing where it meets all."""
    judged = Judged(trace, report, frames)
    for number, rule in enumerate(RULES, 1):
        progress.stage(f"trying rule {number}, {NAMES[number]}")
        if fault := rule(judged):
            return fault
    return None
