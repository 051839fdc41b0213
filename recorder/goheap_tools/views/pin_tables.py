"""The tables of `pins`: what the backed bytes are, and whose objects keep which spans."""

import argparse
from typing import Any, Dict, Iterator, List, Optional, Tuple

from goheap_tools.heap import pinning
from goheap_tools.heap.classes import PAGE, SLOTS
from goheap_tools.heap.pinning import Groups, Names, Pins

# A row of a table, as CSV has it.
Row = Tuple[Any, ...]

PARTS = {
    "live objects": "live objects, as asked for",
    "free slots": "free slots in kept spans",
    "rounding": "rounding: the slots of live objects less their bytes",
    "tails": "tails of spans, behind their last slots",
    "free pages": "free pages that are still backed",
    pinning.HELD: "stacks and other uses of the runtime, which are no objects",
    pinning.CACHED: "pages in the page caches of processors",
    pinning.LENT: "pages that are out to the scavenger",
}


GO_TITLE = "In Go's words"


def percent(part: float, total: float) -> str:
    return f"{100 * part / total:.1f}%" if total else "0.0%"


def ratio(pinned: int, own: int) -> str:
    return f"{pinned / own:,.1f}" if own else "-"


def counted(count: int, what: str) -> str:
    return f"{count:,} {what}{'' if count == 1 else 's'}"


def sum_lines(pins: Pins) -> Iterator[str]:
    spans, backed, held = sum(pins.pages), pins.backed * PAGE, pins.others[pinning.HELD]
    came = f"; {counted(pins.behind, 'object')} came behind it" if pins.behind else ""
    yield f"Mark end {pins.mark_end} of {pins.mark_ends}: {counted(pins.backed, 'page')} backed, {spans:,} of them in {counted(len(pins.first), 'span')} kept{came}"
    if pins.missed:
        yield f"{counted(pins.missed, 'live object')} of {pins.missed_bytes:,} bytes found no room: they are in none of these numbers"
    yield f"{'bytes':>13} {'%':>6}  of the backed bytes"
    for name, size in pins.sums().items():
        emptied = f", {sum(count for _, count in pins.emptied) * PAGE:,} of them in spans that this mark end emptied" if name == "free pages" and pins.emptied else ""
        yield f"{size:>13,} {percent(size, backed):>6}  {PARTS[name]}{emptied}"
    if not pins.memory:
        yield f"{backed:>13,} 100.0%  backed; in Go's words HeapInuse {spans * PAGE:,}, HeapIdle less HeapReleased {backed - (spans + held) * PAGE:,}"
        return
    yield f"{backed:>13,} 100.0%  backed"
    yield ""
    yield f"{GO_TITLE:<17} {'HeapInuse':>13} {'StackInuse':>13} {'HeapIdle':>13} {'HeapReleased':>13} {'other':>11}"
    for row in pins.in_go_s_words():
        yield f"{row.when:<17} {row.heap_in_use:>13,} {row.stack_in_use:>13,} {row.heap_idle:>13,} {row.heap_released:>13,} {row.other:>11,}"


def sum_rows(pins: Pins) -> Iterator[Row]:
    yield "part", "bytes"
    yield from pins.sums().items()
    yield "backed", pins.backed * PAGE
    yield "not placed", pins.missed_bytes


def memory_rows(pins: Pins) -> Iterator[Row]:
    yield "when", "HeapInuse", "StackInuse", "HeapIdle", "HeapReleased", "other"
    yield from pins.in_go_s_words()


class Without:
    """What would come back without the objects of some stacks."""

    def __init__(self, pins: Pins, names: Names, words: List[str]) -> None:
        self.words, stacks = " ".join(words), names.stacks_of(words, len(pins.own))
        self.objects, self.own = (sum(column[stack] for stack in stacks) for column in (pins.live, pins.own))
        self.spans, self.pages, self.before, self.after, self.joined = pins.without(stacks)

    def lines(self) -> Iterator[str]:
        yield f"Without {self.words} ({counted(self.objects, 'live object')} of {self.own:,} bytes):"
        yield f"  {counted(self.spans, 'span')} of {counted(self.pages, 'page')} ({self.pages * PAGE:,} bytes) would come back"
        yield f"  the longest run of free pages with one of them: {self.joined:,}; of all free pages: {self.after:,}, now {self.before:,}"

    def rows(self) -> Iterator[Row]:
        yield "stacks", "objects", "own", "spans", "pages", "longest run that comes back", "longest run then", "longest run now"
        yield self.words, self.objects, self.own, self.spans, self.pages, self.joined, self.after, self.before


def class_lines(pins: Pins) -> Iterator[str]:
    eighths = [f"{step}/{pinning.STEPS}" for step in range(1, pinning.STEPS + 1)]
    yield "By size class: how many spans are filled to an eighth, to two ..; bytes in free slots, of rounding, of tails"
    yield f"{'slot':>7} {'spans':>7} {'objects':>8} " + " ".join(f"{one:>5}" for one in eighths) + f" {'free slots':>12} {'rounding':>11} {'tails':>10}"
    for number, row in pins.classes():
        steps = " ".join(f"{count or '.':>5}" for count in row.steps)
        yield f"{SLOTS[number] or 'large':>7} {row.spans:>7,} {row.objects:>8,} {steps} {row.free:>12,} {row.rounding:>11,} {row.tails:>10,}"


def class_rows(pins: Pins) -> Iterator[Row]:
    yield "slot", "spans", "pages", "objects", *(f"to {step} eighths" for step in range(1, pinning.STEPS + 1)), "live", "free slots", "rounding", "tails"
    for number, row in pins.classes():
        yield SLOTS[number] or "large", row.spans, row.pages, row.objects, *row.steps, row.live, row.free, row.rounding, row.tails


def rest_line(shown: int, of: int, what: str, groups: Groups) -> str:
    several = f"; {counted(groups.mixed_spans, 'span')} of {groups.mixed:,} bytes have objects of several" if groups.mixed_spans else ""
    return f"By {what}, {shown:,} of {of:,}: what they pin is bytes of spans that have no other object{several}"


def stack_lines(pins: Pins, names: Names, options: argparse.Namespace) -> Iterator[str]:
    groups = names.stacks(pins)
    order, backed, live = groups.order(options.top), pins.backed * PAGE, sum(groups.own)
    yield rest_line(len(order), len(groups.first), "stack", groups)
    yield f"{'own':>12} {'own%':>6} {'pinned':>12} {'%':>6} {'ratio':>8} {'spans':>7} {'shared':>12} {'objects':>8}  stack"
    for at in order:
        own, pinned, stack = groups.own[at], groups.pinned[at], groups.first[at]
        frames = names.shown(stack)
        yield (f"{own:>12,} {percent(own, live):>6} {pinned:>12,} {percent(pinned, backed):>6} {ratio(pinned, own):>8} {groups.spans[at]:>7,} {groups.shared[at]:>12,}"
               f" {groups.live[at]:>8,}  {stack} {frames[0]}")
        if options.frames:
            yield from (" " * 81 + frame for frame in frames[1:])


def stack_rows(pins: Pins, names: Names) -> Iterator[Row]:
    groups = names.stacks(pins)
    yield "number", "own", "pinned", "spans", "shared", "objects", "frames"
    for at in groups.order(len(groups.first)):
        stack = groups.first[at]
        yield stack, groups.own[at], groups.pinned[at], groups.spans[at], groups.shared[at], groups.live[at], "\t".join(names.shown(stack))


class Functions:
    """The rows of functions: what the objects are that they allocated themselves (flat), and those that they and what they call did (cum)."""

    def __init__(self, pins: Pins, names: Names, by_cum: bool) -> None:
        self.flat = Groups(pins, names.function)
        self.own, self.pinned = pinning.reach(pins, {stack: names.functions(stack) for stack in pins.live_stacks}.get)
        group = {name: at for at, name in enumerate(self.flat.keys)}
        rows = [(name, *self.of(group.get(name)), self.own[name], self.pinned[name]) for name in self.own]
        first, second = (5, 2) if by_cum else (2, 5)
        self.rows = sorted(rows, key=lambda row: (-row[first], -row[second], -row[4], row[0]))

    def of(self, at: Optional[int]) -> Tuple[int, int, int]:
        flat = self.flat
        return (flat.own[at], flat.pinned[at], flat.spans[at]) if at is not None else (0, 0, 0)


def function_lines(pins: Pins, names: Names, options: argparse.Namespace) -> Iterator[str]:
    functions, backed = Functions(pins, names, options.cum), pins.backed * PAGE
    shown = functions.rows[: options.top]
    yield rest_line(len(shown), len(functions.rows), "function", functions.flat)
    yield f"{'own':>12} {'pinned':>12} {'%':>6} {'ratio':>8} {'spans':>7} {'cum own':>12} {'cum pinned':>12} {'cum%':>6}  function"
    for name, own, pinned, spans, cum_own, cum_pinned in shown:
        yield (f"{own:>12,} {pinned:>12,} {percent(pinned, backed):>6} {ratio(pinned, own):>8} {spans:>7,} {cum_own:>12,} {cum_pinned:>12,}"
               f" {percent(cum_pinned, backed):>6}  {name}")


def function_rows(pins: Pins, names: Names, options: argparse.Namespace) -> Iterator[Row]:
    yield "name", "own", "pinned", "spans", "cum own", "cum pinned"
    yield from Functions(pins, names, options.cum).rows


def tables(pins: Pins, names: Names, options: argparse.Namespace) -> List[Row]:
    """The tables as rows of plain numbers, each row led by its table's name, and each table by a row of its columns' names."""
    found = [("sum", sum_rows(pins))]
    if pins.memory:
        found.append(("memory", memory_rows(pins)))
    if options.without:
        found.append(("without", Without(pins, names, options.without).rows()))
    found.append(("class", class_rows(pins)))
    found.append(("function", function_rows(pins, names, options)) if options.functions else ("stack", stack_rows(pins, names)))
    return [(name, *row) for name, rows in found for row in rows]


def told(pins: Pins, names: Names, options: argparse.Namespace) -> Dict[str, Any]:
    """The tables for a script: each row by the names of its columns, with blanks as underscores."""
    found: Dict[str, Any] = {"mark_end": pins.mark_end, "mark_ends": pins.mark_ends, "objects_behind": pins.behind, "backed_pages": pins.backed}
    titles: Dict[str, List[str]] = {}
    for name, *row in tables(pins, names, options):
        if name not in titles:
            titles[name] = [str(title).replace(" ", "_") for title in row]
            found[name] = []
        else:
            found[name].append(dict(zip(titles[name], row)))
    found["sum"] = {row["part"].replace(" ", "_"): row["bytes"] for row in found["sum"]}
    return found


def lines(pins: Pins, names: Names, options: argparse.Namespace) -> Iterator[str]:
    yield from sum_lines(pins)
    yield ""
    if options.without:
        yield from Without(pins, names, options.without).lines()
        yield ""
    yield from class_lines(pins)
    yield ""
    yield from (function_lines if options.functions else stack_lines)(pins, names, options)
