"""What a page carries of a recording: its stacks, the counts of its profile, its spans, pages and objects, as columns.

The counts are those that `leaks --trace trace report` makes its tables of, the pages those that `pins` follows; the page only adds up.
"""

import itertools
from array import array
from typing import Any, Dict, Iterator, List, NamedTuple, Optional, Tuple

from goheap_tools.formats.frames import name_of, place_of, shown_frames, type_of
from goheap_tools.formats.journal import KINDS, BLOCK_LINES, Miss
from goheap_tools.formats.report import MISSED, Report
from goheap_tools.formats.stacks import Stacks
from goheap_tools.formats.traces import Trace
from goheap_tools.heap import pages
from goheap_tools.heap.classes import BASE, PAGE, SLOTS
from goheap_tools.heap.pinning import Replay, others_of
from goheap_tools.heap.profile import MarkEnd, buckets_of_trace
from goheap_tools.look.columns import Columns

# The words of the journal, by the numbers that the page has for them.
WORDS = list(KINDS)
PART = pages.CHUNK  # pages of the map that are compared at a time
ALIGNED = 8  # bytes; each slot begins at such an address, but what rides in a block


class Recording(NamedTuple):
    """A recording that was read, with the profile of each mark end."""

    trace: Trace
    report: Report
    stacks: Stacks
    mark_ends: List[MarkEnd]


def counted(trace: Trace, report: Report, stacks: Stacks) -> Recording:
    """The recording with its objects counted by stack and slot, at each mark end."""
    return Recording(trace, report, stacks, list(buckets_of_trace(trace, report.addresses)))


class Texts:
    """Texts by their numbers, each once."""

    def __init__(self) -> None:
        self.numbers: Dict[Any, int] = {}

    def number(self, text: Any) -> int:
        return self.numbers.setdefault(text, len(self.numbers))

    def list(self) -> List[Any]:
        return list(self.numbers)


class StackTable:
    """The stacks of one or two recordings by their places in the page, with the frames that the tables show."""

    def __init__(self) -> None:
        self.functions, self.frames, self.types, self.groups = Texts(), Texts(), Texts(), Texts()
        self.numbers: List[int] = []
        self.of_type: List[int] = []
        self.group: List[int] = []
        self.begins, self.shown = [0], array("I")
        self.hidden_begins, self.hidden = [0], array("I")

    def add(self, numbers: List[int], stacks: Stacks) -> Dict[int, int]:
        """Adds a recording's stacks. Returns the place of each."""
        places = {}
        for number in numbers:
            frames = stacks.frames.get(number, [])
            places[number] = len(self.numbers)
            self.numbers.append(number)
            self.of_type.append(self.types.number(type_of(stacks.types.get(number), frames)))
            self.group.append(self.groups.number(tuple(frames) or number))
            for function, place in self.frames_of(number, frames):
                self.shown.append(self.frames.number((self.functions.number(function), place)))
            self.begins.append(len(self.shown))
            for frame in frames[: len(frames) - len(shown_frames(frames))]:
                self.hidden.append(self.functions.number(name_of(frame)))
            self.hidden_begins.append(len(self.hidden))
        return places

    @staticmethod
    def frames_of(number: int, frames: List[str]) -> List[Tuple[str, str]]:
        """The function and the place of each frame shown; a stack without frames stands for itself."""
        if not frames:
            return [(f"(stack {number})", "")]
        return [(name_of(frame), place_of(frame)) for frame in shown_frames(frames)]

    def put(self, columns: Columns) -> None:
        frames = self.frames.list()
        columns.add("stackNumber", self.numbers, True)
        columns.add("stackType", self.of_type)
        columns.add("stackGroup", self.group, True)
        columns.add("stackBegin", self.begins, True)
        columns.add("stackFrame", self.shown, True)
        columns.add("hiddenBegin", self.hidden_begins, True)
        columns.add("hiddenFunction", self.hidden)
        columns.add("frameFunction", (function for function, _ in frames), True)
        columns.add_texts("functions", self.functions.list())
        columns.add_texts("places", [place for _, place in frames])
        columns.add_texts("types", self.types.list())


def put_profile(columns: Columns, mark_ends: List[MarkEnd], places: Dict[int, int], front: str = "") -> None:
    """The buckets, and at each mark end by how much which of them changed."""
    numbers: Dict[Tuple[int, int], int] = {}
    counts: List[Tuple[int, int]] = []
    begins, changed, allocs, frees = [0], array("I"), array("I"), array("I")
    for _, buckets in mark_ends:
        here = []
        for bucket in buckets:
            number = numbers.setdefault((bucket.stack, bucket.slot), len(numbers))
            if number == len(counts):
                counts.append((0, 0))
            here.append((number, bucket.allocs - counts[number][0], bucket.frees - counts[number][1]))
            counts[number] = bucket.allocs, bucket.frees
        for number, more, fewer in sorted(here):
            changed.append(number)
            allocs.append(more)
            frees.append(fewer)
        begins.append(len(changed))
    columns.add(front + "bucketStack", [places[stack] for stack, _ in numbers], True)
    columns.add(front + "bucketSlot", [slot for _, slot in numbers])
    columns.add(front + "changeBegin", begins, True)
    columns.add(front + "changeBucket", changed, True)
    columns.add(front + "changeAllocs", allocs)
    columns.add(front + "changeFrees", frees)


class Span:
    """A span that some mark end keeps: from its making to the last one that does."""

    def __init__(self, page: int, span: pages.Span, cycle: int, mark_end: int) -> None:
        self.page, self.pages, self.span_class, self.made, self.first, self.last = page, span.pages, span.span_class, cycle, mark_end, mark_end


class Course:
    """The region from mark end to mark end, each as its sweep is done: the numbers that are drawn over time, the spans that are kept,
    and the runs of pages that are another thing than at the mark end before."""

    NAMES = ("reach", "backed", "spanPages", "spans", "freePages", "freeSlots", "slotBytes", "kept", "freed", "emptied")

    def __init__(self, recording: Recording) -> None:
        self.report, trace = recording.report, recording.trace
        self.replay = Replay(self.report, trace.version)
        self.numbers: Dict[str, List[int]] = {name: [] for name in self.NAMES}
        self.others: List[Dict[str, int]] = []
        self.spans: Dict[int, Span] = {}
        self.begins, self.runs = [0], array("I")
        self.before = b""
        sweeps: List[List[Any]] = [[] for _ in range(trace.mark_ends + 1)]
        for sweep in self.report.sweeps:
            if sweep.cycle <= trace.mark_ends:
                sweeps[sweep.cycle].append(sweep)
        for mark_end in range(1, trace.mark_ends + 1):
            self.replay.go_on(mark_end)
            self.look(mark_end, sweeps[mark_end])
            self.begins.append(len(self.runs) // 3)
        self.top = len(self.replay.pages.kinds)

    def look(self, mark_end: int, sweeps: List[Any]) -> None:
        """Takes in what there is at this mark end, whose sweeps these are."""
        now = self.replay.pages
        kinds, found = bytearray(now.kinds), dict.fromkeys(self.NAMES, 0)
        for sweep in sweeps:
            span = now.spans.get(sweep.page)
            if span is None:
                self.replay.refuse(f"mark end {mark_end} swept a span that is not there")
            found["kept"] += sweep.kept
            found["freed"] += sweep.freed
            if sweep.kept:
                self.keep(sweep, span, mark_end, found)
            else:
                kinds[sweep.page : sweep.page + span.pages] = bytes([pages.FREE]) * span.pages
                found["emptied"] += span.pages
        found["backed"], found["reach"] = now.backed, len(kinds)
        found["freePages"] = kinds.count(pages.FREE)
        for name, number in found.items():
            self.numbers[name].append(number)
        self.others.append({name: count for name, count in others_of(now).items() if count})
        self.differ(bytes(kinds))

    def keep(self, sweep: Any, span: pages.Span, mark_end: int, found: Dict[str, int]) -> None:
        """Takes in a span that is kept."""
        slot = SLOTS[span.span_class // 2] or span.pages * PAGE
        found["spans"] += 1
        found["spanPages"] += span.pages
        found["slotBytes"] += sweep.kept * slot
        found["freeSlots"] += (span.pages * PAGE // slot - sweep.kept) * slot
        known = self.spans.get(span.made)
        if known is None:
            self.spans[span.made] = Span(sweep.page, span, self.report.journal[span.made].cycle, mark_end)
        else:
            known.last = mark_end

    def differ(self, kinds: bytes) -> None:
        """Notes the runs of pages that are of another kind than before."""
        before = self.before + bytes(len(kinds) - len(self.before))
        for at in range(0, len(kinds), PART):
            part, old = kinds[at : at + PART], before[at : at + PART]
            if part != old:
                first = at
                for kind, run in itertools.groupby(part):
                    count = len(list(run))
                    if kinds[first : first + count] != before[first : first + count]:
                        self.runs.extend((first, count, kind))
                    first += count
        self.before = kinds

    def put(self, columns: Columns) -> None:
        for name, numbers in self.numbers.items():
            columns.add("time" + name[0].upper() + name[1:], numbers)
        spans = sorted(self.spans.values(), key=lambda span: (span.page, span.first))
        columns.add("spanPage", (span.page for span in spans), True)
        for name in ("pages", "span_class", "made", "first", "last"):
            columns.add("span" + name.removeprefix("span_").capitalize(), (getattr(span, name) for span in spans))
        columns.add("runBegin", self.begins, True)
        for at, name in enumerate(("runPage", "runPages", "runKind")):
            columns.add(name, self.runs[at::3], at == 0)


def survivors(recording: Recording, first: int = 1) -> Iterator[int]:
    """The placed objects that a mark end from this one on finds alive."""
    addresses = recording.report.addresses
    for one, (cycle, last) in enumerate(zip(recording.trace.cycles(), recording.trace.lasts())):
        if last > cycle and last >= first and addresses[one] > MISSED:
            yield one


def put_objects(columns: Columns, recording: Recording, places: Dict[int, int], some: List[int]) -> None:
    """The objects, those of one span class side by side, as they follow one another there."""
    trace, addresses, lasts = recording.trace, recording.report.addresses, recording.trace.lasts()
    some = sorted(some, key=lambda one: (trace.sizes[one], trace.pointers[one], one))
    columns.add("objectNumber", some, True)
    columns.add("objectPlace", [(addresses[one] - BASE) // ALIGNED for one in some], True)
    columns.add("objectOffset", [(addresses[one] - BASE) % ALIGNED for one in some])
    columns.add("objectSize", [trace.sizes[one] for one in some], True)
    columns.add("objectStack", [places[trace.stacks[one]] for one in some])
    columns.add("objectLast", [lasts[one] for one in some])


def put_journal(columns: Columns, report: Report) -> None:
    """The lines of the journal."""
    journal = report.journal
    columns.add("lineWord", [WORDS.index(type(line).__name__.lower()) for line in journal])
    columns.add("lineCycle", [line.cycle for line in journal], True)
    columns.add("linePage", [0 if isinstance(line, Miss) else line.page for line in journal], True)
    columns.add("linePages", [line.pages for line in journal])
    for name, field in (("lineClass", "span_class"), ("lineProc", "proc")):
        columns.add(name, [getattr(line, field, 0) for line in journal])


def marks_of(trace: Trace) -> List[int]:
    """How many objects stand before each mark end, and how many there are."""
    return [*trace.born, len(trace.sizes)]


def stack_numbers(recording: Recording) -> List[int]:
    return sorted(set(recording.trace.stacks))


def missed_of(recording: Recording) -> Tuple[int, int]:
    """How many objects found no room, and their bytes as asked for."""
    missed = [one for one, address in enumerate(recording.report.addresses) if address == MISSED]
    return len(missed), sum(recording.trace.sizes[one] for one in missed)
