"""Says how often goheap's addresses agree with those of the program that a trace was recorded from, in what addresses can show.

    recorder/compare log trace report

For each object: whether its slot has the same size, and whether it is the same slot of its span. For each mark end and size
class: how many spans hold an object that was found alive. Nothing is claimed of the whole; the figures are counts.

    goheap run < server.trace > model.report
    recorder/compare server.trace server.report model.report

sets a model's run of a trace beside the report of the real run that the trace is of (`pair` makes both): the very slot, spans, pages and free
slots, by size class and mark end.
"""

import argparse
import itertools
import json
import sys
from collections import Counter, defaultdict
from typing import Any, Dict, Iterable, Iterator, List, NamedTuple, Optional, Tuple

from goheap_tools import tool
from goheap_tools.formats import companions, golog
from goheap_tools.formats.packed import log_in
from goheap_tools.formats.report import MISSED, Report, report_in
from goheap_tools.formats.stacks import stack_file
from goheap_tools.formats.traces import Event, Trace, trace_in
from goheap_tools.heap.classes import LARGEST, PAGE, PAGES, SLOTS
from goheap_tools.heap.tiny import BLOCK, riders_of, slot_in
from goheap_tools.views.beside import Beside

# The slot size of an object, and the first page of its span.
Seat = Tuple[int, int]
# Objects that are compared with the log before the trace is read whole.
TRIED = 1000

# What an object is counted as: with the block that it began in the program, of another size in the model or in the block of another there.
OWN_SIZE, SHARING = "tiny, a block of its own in the model", "tiny, in another's block in the model"
# The names of these in JSON.
TOLD = {OWN_SIZE: "tiny_alone", SHARING: "tiny_sharing", "objects": "all", "refused by the model": "refused"}


def seat(address: int, slot: int) -> Optional[Tuple[int, int]]:
    """The first page of the span and the index in it, or nothing where the address does not tell which of two spans it is."""
    if slot > LARGEST:
        return address // PAGE, 0
    pages = PAGES[SLOTS.index(slot)]
    page = address // PAGE
    found = [(first, (address - first * PAGE) // slot) for first in range(page - pages + 1, page + 1) if (address - first * PAGE) % slot == 0]
    found = [(first, index) for first, index in found if (index + 1) * slot <= pages * PAGE]
    return found[0] if len(found) == 1 else None


def is_tiny(event: Event, slot: int) -> bool:
    """Whether the object began a block of tiny ones in the program, where the log has the block alone."""
    return not event.has_pointers and event.size < BLOCK and slot == BLOCK


class Agreement:
    """Counts objects by what they agree in."""

    def __init__(self) -> None:
        self.counts = Counter()
        self.by_class = defaultdict(Counter)

    def take(self, event: Event, slots: Tuple[int, int], real: Optional[Tuple[int, int]], model_address: int, rides: bool) -> None:
        """Takes an object in, with the bytes of its slots in the program and in the model, and whether it has none of its own there."""
        self.counts["objects"] += 1
        if not model_address:
            self.counts["refused by the model"] += 1
            return
        if rides:
            self.counts[SHARING] += 1
            return
        real_slot, slot = slots
        if slot != real_slot:
            self.counts[OWN_SIZE if is_tiny(event, real_slot) else "another slot size"] += 1
            return
        self.counts["same slot size"] += 1
        row = self.by_class[slot]
        model = seat(model_address, slot)
        if real is None or model is None:
            row["unknown"] += 1
        elif real[1] == model[1]:
            row["same"] += 1
        else:
            row["other"] += 1

    def told(self) -> Dict[str, Any]:
        """The counts for a script."""
        names = ("objects", "same slot size", OWN_SIZE, SHARING, "another slot size", "refused by the model")
        slots = [{"slot": slot, **{name: self.by_class[slot][name] for name in ("same", "other", "unknown")}} for slot in sorted(self.by_class)]
        return {"objects": {TOLD.get(name, name.replace(" ", "_")): self.counts[name] for name in names}, "slots": slots}

    def lines(self) -> Iterator[str]:
        count = self.counts["objects"] or 1
        for name in ("objects", "same slot size", OWN_SIZE, SHARING, "another slot size", "refused by the model"):
            if name == SHARING and not self.counts[name]:
                continue
            yield f"{name:<42} {self.counts[name]:>9} {100 * self.counts[name] / count:>6.1f}%"
        same = sum(row["same"] for row in self.by_class.values())
        known = same + sum(row["other"] for row in self.by_class.values())
        yield f"{'same slot of the span, where both are known':<42} {same:>8} {100 * same / (known or 1):>6.1f}% of {known}"
        yield ""
        yield f"{'slot':>8} {'objects':>9} {'same slot':>10} {'other':>8} {'not known':>10}"
        for slot in sorted(self.by_class):
            row = self.by_class[slot]
            yield f"{slot:>8} {sum(row.values()):>9} {row['same']:>10} {row['other']:>8} {row['unknown']:>10}"


class Alive:
    """The number of spans that hold an object which the mark end so far found alive, by slot size."""

    def __init__(self) -> None:
        self.objects, self.spans = Counter(), Counter()

    def add(self, seats: Iterable[Seat]) -> None:
        """Objects of these spans are found alive from here on."""
        for seat in seats:
            self.objects[seat] += 1
            if self.objects[seat] == 1:
                self.spans[seat[0]] += 1

    def drop(self, seats: Iterable[Seat]) -> None:
        """Objects of these spans are not any more."""
        for seat in seats:
            self.objects[seat] -= 1
            if not self.objects[seat]:
                self.spans[seat[0]] -= 1


def changes(trace: Trace, seats: List[Optional[Seat]]) -> Tuple[Dict[int, List[Seat]], Dict[int, List[Seat]]]:
    """For each mark end the spans of the objects that it is the first to mark, and of those that it is the first not to mark any more."""
    new, gone = defaultdict(list), defaultdict(list)
    for seat, cycle, last in zip(seats, trace.cycles(), trace.lasts()):
        if seat and last > cycle:
            new[cycle + 1].append(seat)
            gone[last + 1].append(seat)
    return new, gone


class SpanRow(NamedTuple):
    """How many spans a mark end finds alive in the program and in the model, and of how many slot sizes there are as many, and nearly."""

    mark_end: int
    program: int
    model: int
    sizes_equal: int
    sizes_near: int
    sizes: int


def span_rows(trace: Trace, real: List[Optional[Seat]], model: List[Optional[Seat]]) -> Iterator[SpanRow]:
    sides = [(Alive(), *changes(trace, seats)) for seats in (real, model)]
    for number in range(1, trace.mark_ends + 1):
        for alive, new, gone in sides:
            alive.drop(gone.pop(number, ()))
            alive.add(new.pop(number, ()))
        theirs, ours = (+alive.spans for alive, _, _ in sides)
        slots = set(theirs) | set(ours)
        pairs = [(theirs.get(slot, 0), ours.get(slot, 0)) for slot in slots]
        equal = sum(a == b for a, b in pairs)
        near = sum(abs(a - b) * 10 <= max(a, b) for a, b in pairs)
        yield SpanRow(number, sum(theirs.values()), sum(ours.values()), equal, near, len(slots))


def span_lines(rows: Iterable[SpanRow]) -> Iterator[str]:
    yield f"{'mark end':>8} {'spans alive':>12} {'model':>8} {'sizes with as many':>20} {'within a tenth':>15} {'of':>4}"
    for row in rows:
        yield f"{row.mark_end:>8} {row.program:>12} {row.model:>8} {row.sizes_equal:>20} {row.sizes_near:>15} {row.sizes:>4}"


def check(number: int, event: Event, found: golog.Allocation) -> None:
    """Refuses an object that is not the log's allocation of this number."""
    if event.size not in (found.asked, found.slot):
        raise tool.Unusable(f"object {number} of the trace has {event.size} bytes, in the log {found.asked or found.slot}: it was recorded from another log")


def first_allocations(allocations: Iterator[golog.Allocation], path: str) -> List[golog.Allocation]:
    """The log's first allocations, which must be of the trace's first objects. So a wrong log is told before the trace is read whole."""
    with tool.reading(path) as file:
        events = itertools.islice((line.split() for line in file if line.startswith("a ")), TRIED)
        firsts = []
        for number, (words, found) in enumerate(zip(events, allocations)):
            firsts.append(found)
            if len(words) == 5 and words[2].isdecimal():
                check(number, Event(0, 0, int(words[2]), words[3] == "s", 0), found)
    return firsts


def compare(allocations: Iterator[golog.Allocation], trace: Trace, report: Report) -> Tuple[Agreement, List[SpanRow]]:
    """What both tables have. A trace may end before its log."""
    if len(trace.sizes) != len(report.addresses):
        raise tool.Unusable(f"the trace has {len(trace.sizes)} objects and the report {len(report.addresses)}: it is no report of this trace")
    agreement, riders = Agreement(), riders_of(trace, report.addresses)
    real_seats, model_seats = [], []
    for number, (event, address) in enumerate(zip(trace.events, report.addresses)):
        found = next(allocations, None)
        if found is None:
            raise tool.Unusable(f"the log has {number} allocations and the trace {len(trace.sizes)} objects: it was recorded from another log")
        check(number, event, found)
        real = seat(found.address, found.slot)
        slot = slot_in(trace, event.size, event.has_pointers) if event.size else 0
        placed = address if address > MISSED else 0
        agreement.take(event, (found.slot, slot), real, placed, number in riders)
        # what rides stands in a slot of its lead's span
        model = seat(placed - riders[number].offset if number in riders else placed, slot) if placed and slot else None
        real_seats.append((found.slot, real[0]) if real else None)
        model_seats.append((slot, model[0]) if model else None)
    return agreement, list(span_rows(trace, real_seats, model_seats))


def check_stacks(options: argparse.Namespace) -> None:
    """Refuses a trace that is not the one of the stacks, or that begins behind its log."""
    stacks = stack_file(options.stacks)
    if companions.of_trace_file(stacks, options.trace) is False:
        raise tool.Unusable(f"{options.trace} and {options.stacks} are of two recordings")
    if stacks.number("from mark end"):
        raise tool.Unusable(f"{options.trace} begins at mark end {stacks.number('from mark end')} of its log, and cannot be compared with it")


def is_trace(path: str) -> bool:
    """Whether the file is a trace, and not a log, which may be packed."""
    if path == "-":
        return False
    with open(path, "rb") as file:
        return tool.kind_of(file.read(100).decode("latin-1")) == "a trace"


def set_beside(options: argparse.Namespace) -> int:
    """The report of a real run beside a model's of the same trace."""
    trace, real, model = trace_in(options.log), report_in(options.trace), report_in(options.report)
    if options.stacks:
        companions.of_trace(stack_file(options.stacks), trace, (options.stacks, trace.name))
    for report in (real, model):
        if len(report.addresses) != len(trace.sizes):
            raise tool.Unusable(f"{report.name} has {len(report.addresses)} objects, and {trace.name} has {len(trace.sizes)}: it is no report of this trace")
    found = Beside(trace, real, model)
    with tool.Output(options.output) as out:
        if options.json:
            out.write(json.dumps(found.told(), indent=1) + "\n")
        else:
            for line in found.lines():
                out.write(line + "\n")
    return 0


def main(words: List[str]) -> int:
    parser = argparse.ArgumentParser(prog="compare", description=__doc__.split("\n\n")[0], usage="%(prog)s [options] log trace report | trace real-report report")
    parser.add_argument("log", help="the log that the trace was recorded from; or the trace of a real run")
    parser.add_argument("trace", help="the trace; or the report of the real run")
    parser.add_argument("report", help="what goheap printed of the trace")
    parser.add_argument("--stacks", help="the stacks of the recording, by which another trace is told")
    parser.add_argument("--json", action="store_true", help="print the counts as JSON")
    parser.add_argument("--output", "-o", default="-", help="a file for the tables (default: standard output)")
    options = parser.parse_args(words)
    if is_trace(options.log):
        return set_beside(options)
    with tool.Output(options.output) as out, log_in(options.log) as log:
        if options.stacks:
            check_stacks(options)
        allocations = (event for event in golog.events(golog.pieces_of(log)) if isinstance(event, golog.Allocation))
        firsts = first_allocations(allocations, options.trace)
        trace, report = trace_in(options.trace), report_in(options.report)
        agreement, spans = compare(itertools.chain(firsts, allocations), trace, report)
        if options.json:
            out.write(json.dumps({**agreement.told(), "mark_ends": [row._asdict() for row in spans]}, indent=1) + "\n")
        else:
            for line in itertools.chain(agreement.lines(), [""], span_lines(spans)):
                out.write(line + "\n")
    return 0


def command() -> None:
    tool.end("compare", main, sys.argv[1:], tells=True)
