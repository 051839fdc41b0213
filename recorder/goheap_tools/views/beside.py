"""The report of a real run beside that of a model's run of the same trace: the very slot, spans, pages and free slots."""

import itertools
from collections import Counter, defaultdict
from typing import Any, Dict, Iterator, List, NamedTuple

from goheap_tools.formats.report import MISSED, Report
from goheap_tools.formats.traces import Trace
from goheap_tools.heap.classes import SLOTS
from goheap_tools.heap.seats import NONE, Spans, indexes_of, kept_spans
from goheap_tools.heap.tiny import riders_of, slot_in

# What an object is counted as, in the order of the lines.
OBJECTS, EMPTY, MISSES = "objects", "of size 0", "missed by one of the two"
RIDING, LEADING = "in another's block in both", "in another's block in one of the two"
SAME_ADDRESS, SAME, OTHER, UNKNOWN = "at the same address", "the same slot of the span", "another slot of the span", "not known"
LINES = (OBJECTS, EMPTY, MISSES, RIDING, LEADING, SAME_ADDRESS, SAME, OTHER, UNKNOWN)
LARGE = "large"


class Sums(NamedTuple):
    """What a mark end kept of a class, or of all: spans, pages and free slots of the real run and of the model."""

    spans: int
    model_spans: int
    pages: int
    model_pages: int
    free: int
    model_free: int


def sums_of(real: Spans, model: Spans) -> Sums:
    return Sums(real.spans, model.spans, real.pages, model.pages, real.free, model.free)


def total_of(classes: Dict[int, Spans]) -> Spans:
    found = Spans()
    for one in classes.values():
        found.add(one.spans, one.pages, one.free)
    return found


class Beside:
    """What the two reports of a trace agree in."""

    def __init__(self, trace: Trace, real: Report, model: Report) -> None:
        self.counts: Counter = Counter()
        self.slots: Dict[int, Counter] = defaultdict(Counter)
        self.count(trace, real, model)
        self.mark_ends: List[Sums] = []
        self.last: Dict[int, Sums] = {}
        for ours, theirs in zip(kept_spans(trace, real), kept_spans(trace, model)):
            self.mark_ends.append(sums_of(total_of(ours), total_of(theirs)))
            self.last = {number: sums_of(ours.get(number, Spans()), theirs.get(number, Spans())) for number in sorted({*ours, *theirs})}

    def count(self, trace: Trace, real: Report, model: Report) -> None:
        riders = [riders_of(trace, report.addresses) for report in (real, model)]
        indexes = [indexes_of(trace, report, of) for report, of in zip((real, model), riders)]
        for one, (place, other, index, other_index) in enumerate(zip(real.addresses, model.addresses, *indexes)):
            self.counts[OBJECTS] += 1
            rides = sum(one in of for of in riders)
            if not trace.sizes[one]:
                self.counts[EMPTY] += 1
            elif min(place, other) <= MISSED:
                self.counts[MISSES] += 1
            elif rides:
                self.counts[RIDING if rides == 2 else LEADING] += 1
            else:
                slot = slot_in(trace, trace.sizes[one], bool(trace.pointers[one]))
                what = UNKNOWN if NONE in (index, other_index) else SAME if index == other_index else OTHER
                self.slots[slot if slot in SLOTS else 0][what] += 1
                self.counts[what] += 1
                self.counts[SAME_ADDRESS] += place == other

    def lines(self) -> Iterator[str]:
        of = self.counts[OBJECTS] or 1
        for name in LINES:
            if self.counts[name] or name in (OBJECTS, SAME):
                yield f"{name:<42} {self.counts[name]:>10,} {100 * self.counts[name] / of:>6.1f}%"
        yield ""
        yield "By size class: objects with the same slot of the span, with another one, and not known; spans, pages and free slots that the last mark end kept"
        yield f"{'slot':>7} {'same':>9} {'other':>9} {'unknown':>8} {'spans':>7} {'model':>7} {'pages':>7} {'model':>7} {'free slots':>11} {'model':>9}"
        numbers = {SLOTS.index(slot): row for slot, row in self.slots.items()}
        for number in sorted({*numbers, *self.last}):
            row, sums = numbers.get(number, Counter()), self.last.get(number, Sums(0, 0, 0, 0, 0, 0))
            yield f"{SLOTS[number] or LARGE:>7} {row[SAME]:>9,} {row[OTHER]:>9,} {row[UNKNOWN]:>8,} {sums_text(sums)}"
        yield ""
        yield f"{'mark end':>8} {'spans':>7} {'model':>7} {'pages':>7} {'model':>7} {'free slots':>11} {'model':>9}"
        for number, sums in enumerate(self.mark_ends, 1):
            yield f"{number:>8} {sums_text(sums)}"

    def told(self) -> Dict[str, Any]:
        """The same for a script."""
        named = lambda counts, names: {name.replace(" ", "_").replace("'", ""): counts[name] for name in names}
        slots = [{"slot": slot or LARGE, **named(self.slots[slot], (SAME, OTHER, UNKNOWN))} for slot in sorted(self.slots)]
        classes = [{"slot": SLOTS[number] or LARGE, **sums._asdict()} for number, sums in self.last.items()]
        return {"objects": named(self.counts, LINES), "slots": slots, "classes": classes,
                "mark_ends": [{"mark_end": number, **sums._asdict()} for number, sums in enumerate(self.mark_ends, 1)]}  # fmt: skip


def sums_text(sums: Sums) -> str:
    widths = itertools.chain((7,) * 4, (11, 9))
    return " ".join(f"{value:>{width},}" for value, width in zip(sums, widths))
