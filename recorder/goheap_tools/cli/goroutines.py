"""Counts a program's goroutines by their stacks, from the log that Go's runtime writes: how many there are at a mark end, and how they grew.

    GODEBUG=allocfreetrace=1 ./program 2> log
    recorder/goroutines log

Goroutines that never end are a leak that no table of objects shows: what they hold is alive. `since` has how many more of a row there are than
at the first mark end that is counted, and `grew` at how many of the mark ends behind it there were more than at the one before. The runtime's own
goroutines are left out.
"""

import argparse
import json
import sys
from collections import Counter
from typing import Any, Dict, Iterable, Iterator, List, NamedTuple, Tuple

from goheap_tools import progress, tool
from goheap_tools.formats import golog
from goheap_tools.formats.frames import name_of, shown_frames
from goheap_tools.formats.packed import log_in
from goheap_tools.inside.kinds import Kind, kind_of, refusal
from goheap_tools.tool import size_text

# What a row is of: the state, the frames, and who started the goroutine.
Key = Tuple[str, Tuple[str, ...], str]


def key_of(goroutine: golog.Goroutine) -> Key:
    return goroutine.state, goroutine.frames, goroutine.created


class Row:
    """The goroutines of one kind as of the last mark end so far."""

    def __init__(self) -> None:
        self.count = self.first = self.most = self.stack = self.grew = 0

    def end_mark_end(self, count: int, stack: int, is_first: bool) -> None:
        if is_first:
            self.first = count
        else:
            self.grew += count > self.count
        self.count, self.stack, self.most = count, stack, max(self.most, count)


class Counts:
    """The goroutines of a log over its mark ends, up to one of them."""

    def __init__(self, collections: Iterable[golog.Collection], at: int, has_all: bool) -> None:
        self.rows: Dict[Key, Row] = {}
        self.first, self.last, self.own = 1, 0, 0
        for collection in collections:
            self.last += 1
            self.take(collection, has_all)
            if self.last == at:
                break

    def take(self, collection: golog.Collection, has_all: bool) -> None:
        counts: Counter = Counter()
        stacks: Counter = Counter()
        self.own = 0
        for goroutine in collection.goroutines:
            if goroutine.is_the_runtime_s() and not has_all:
                self.own += 1
                continue
            counts[key_of(goroutine)] += 1
            stacks[key_of(goroutine)] += goroutine.stack
        for key in {**self.rows, **counts}:
            self.rows.setdefault(key, Row()).end_mark_end(counts[key], stacks[key], self.last == self.first)

    def total(self) -> int:
        return sum(row.count for row in self.rows.values())


class Shown(NamedTuple):
    """A row of the table."""

    state: str
    frames: List[str]
    created: str
    row: Row


def shown(counts: Counts, options: argparse.Namespace) -> List[Shown]:
    """The rows in their order."""
    rows = [Shown(state, shown_frames(list(frames)) if frames else ["(running on another thread)"], created, row) for (state, frames, created), row in counts.rows.items() if row.count]
    growth = lambda one: (one.row.first - one.row.count, -one.row.grew) if options.sort == "grew" else (0, 0)
    return sorted(rows, key=lambda one: (growth(one), -one.row.count, one.frames, one.state, one.created))


def lines(counts: Counts, rows: List[Shown], options: argparse.Namespace) -> Iterator[str]:
    stack = sum(one.row.stack for one in rows)
    left_out = f"; {counts.own} of the runtime's own are left out (--all)" if counts.own else ""
    yield f"Mark end {counts.last}: {counts.total():,} goroutines, whose frames take {size_text(stack)} of their stacks{left_out}"
    yield f"Showing {min(options.top, len(rows)):,} of {len(rows):,} kinds, by state, stack and who started them"
    grows = counts.last > counts.first
    titles = f" {f'since {counts.first}':>10} {'grew':>7}" if grows else ""
    yield f"{'count':>8}{titles} {'stacks':>10}  {'state':<22} function"
    for state, frames, created, row in rows[: options.top]:
        growth = f" {f'{row.count - row.first:+,}' if row.count != row.first else '0':>10} {f'{row.grew}/{counts.last - counts.first}':>7}" if grows else ""
        by = f", started by {created}" if created else ""
        yield f"{row.count:>8,}{growth} {size_text(row.stack):>10}  {state:<22} {frames[0]}{by}"
        if options.frames:
            yield from (" " * (45 + len(titles)) + frame for frame in frames[1:])


def told(counts: Counts, rows: List[Shown]) -> Dict[str, Any]:
    """The table for a script: all rows, with plain numbers."""
    kinds = [
        {"count": row.count, "since": row.count - row.first, "grew": row.grew, "most": row.most, "stack": row.stack, "state": state, "function": name_of(frames[0]), "frames": frames, "created_by": created}
        for state, frames, created, row in rows
    ]
    return {"mark_end": counts.last, "first_mark_end": counts.first, "goroutines": counts.total(), "of_the_runtime": counts.own, "rows": kinds}


def options_of(words: List[str]) -> argparse.Namespace:
    parser = argparse.ArgumentParser(prog="goroutines", description=__doc__.split("\n\n")[0])
    parser.add_argument("log", nargs="?", default="-", help="the log, which may be packed; - or nothing: standard input")
    parser.add_argument("--at", type=tool.number(1, 1_000_000), default=0, metavar="N", help="as of mark end N of the log (default: the last one)")
    parser.add_argument("--sort", choices=("count", "grew"), default="count", help="which column's greatest rows come first (default count)")
    parser.add_argument("--top", type=tool.number(1, 10**9), default=20, help="how many rows (default 20)")
    parser.add_argument("--frames", action="store_true", help="print whole stacks")
    parser.add_argument("--all", action="store_true", help="count the runtime's own goroutines too")
    parser.add_argument("--json", action="store_true", help="print all rows as JSON, with plain numbers")
    parser.add_argument("--output", "-o", default="-", help="a file for the table (default: standard output)")
    return parser.parse_args(words)


def check_kind(path: str) -> None:
    """Refuses what is no log."""
    kind = kind_of(path)
    if kind is Kind.RECORDING:
        raise tool.Unusable(f"{path}: a recording has objects and the pages of stacks (`facts` shows them), and no goroutines: those are in a log of GODEBUG=allocfreetrace=1")
    if kind in (Kind.GO, Kind.ITSELF):
        raise tool.Unusable(f"{path}: a program, and its log is wanted here: GODEBUG=allocfreetrace=1 {path} 2> log")
    if why := refusal(path, kind):
        raise tool.Unusable(why)


def main(words: List[str]) -> int:
    options = options_of(words)
    if options.log != "-":
        check_kind(options.log)
    with tool.Output(options.output) as out, log_in(options.log) as log:
        progress.stage("reading the log")
        events = golog.events(golog.pieces_of(log))
        counts = Counts((event for event in events if isinstance(event, golog.Collection)), options.at, options.all)
        if not counts.last:
            raise tool.Unusable(f"{tool.named(options.log)}: no mark end was found: is this a log of GODEBUG=allocfreetrace=1, of a program that collects? (run it with GOGC=20)")
        if options.at > counts.last:
            raise tool.Unusable(f"{tool.named(options.log)}: there are mark ends 1 to {counts.last}, and no {options.at}")
        rows = shown(counts, options)
        if options.json:
            out.write(json.dumps(told(counts, rows), indent=1) + "\n")
        else:
            for line in lines(counts, rows, options):
                out.write(line + "\n")
    return 0


def command() -> None:
    tool.end("goroutines", main, sys.argv[1:], tells=True)
