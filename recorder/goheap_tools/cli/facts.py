"""Prints what a recording says of the heap at each of the program's mark ends, beside what Go's runtime counted there itself.

    recorder/facts server.heap
    recorder/facts server.heap --profile

Each number is summed up from the recording's events; `agrees` says whether the runtime's own counters are the same, to the object and the
byte. `--profile` shows which functions allocated, and what Go's own sampled profile makes of it.
"""

import argparse
import os
import sys
import time
from typing import Dict, Iterable, Iterator, List, Sequence

from goheap_tools import tool
from goheap_tools.inside import recording as form
from goheap_tools.inside.facts import Facts, Point, Sample, Sums, profiles
from goheap_tools.inside.names import Names, names_of, who
from goheap_tools.inside.recording import Recording
from goheap_tools.tool import size_text

REASONS = {0: "the program was ended in the middle of an event", 1: "the file reached its size (record --size)", 2: "the file system had no room left"}
TITLES = ("at", "mallocs", "frees", "HeapAlloc", "HeapInuse", "HeapIdle", "HeapReleased", "StackInuse", "other", "procs", "agrees")


def options_of(words: Sequence[str]) -> argparse.Namespace:
    parser = argparse.ArgumentParser(prog="facts", description=__doc__.split("\n\n")[0], usage="%(prog)s [options] recording")
    parser.add_argument("recording", help="as `record` wrote it")
    parser.add_argument("--all", action="store_true", help="a row for each call of runtime.ReadMemStats too")
    parser.add_argument("--profile", action="store_true", help="a table of who allocated: all objects, those that Go's own profile sampled, and its estimate")
    parser.add_argument("--top", type=tool.number(1, 1 << 31), default=20, metavar="N", help="rows of the profile (default 20)")
    parser.add_argument("--program", help="the program's file, for the names of functions (default: those behind the recording, or the file that it names)")
    parser.add_argument("--csv", action="store_true", help="plain numbers with commas between them")
    parser.add_argument("--output", "-o", default="-", help="a file for the tables (default: standard output)")
    return parser.parse_args(words)


def plain(value: float) -> str:
    return f"{value:.0f}"


def grouped(value: float) -> str:
    return f"{value:,.0f}"


def rows_of(points: Iterable[Point], is_plain: bool) -> Iterator[List[str]]:
    size, count = (plain, plain) if is_plain else (size_text, grouped)
    yield ["mark end", *TITLES]
    for point in points:
        sums = point.sums
        at = f"{point.clock / 1e9:.3f} s" if point.clock else ""
        agrees = "" if point.told is None else "no" if point.differences() else "yes"
        yield [point.name.removeprefix("mark end "), at, count(sums.mallocs), count(sums.frees), size(sums.heap_alloc), size(sums.heap_in_use), size(sums.idle),
               size(sums.released * form.PAGE), size(sums.stack_in_use), size(sums.others_in_use), str(point.processors), agrees]  # fmt: skip


def table(rows: Iterable[List[str]], is_plain: bool) -> Iterator[str]:
    """The rows as lines: the first column to the left, the others to the right; or with commas between them."""
    rows = list(rows)
    if is_plain:
        yield from (",".join(row) + "\n" for row in rows)
        return
    widths = [max(len(row[at]) for row in rows) for at in range(len(rows[0]))]
    for row in rows:
        yield "  ".join([row[0].ljust(widths[0]), *(field.rjust(width) for field, width in zip(row[1:], widths[1:]))]).rstrip() + "\n"


def time_text(seconds: float) -> str:
    """A time of the wall's clock, in this place's zone."""
    try:
        return time.strftime("%Y-%m-%d %H:%M:%S", time.localtime(seconds))
    except (OverflowError, ValueError, OSError):
        return "at no time that there is"


def heading(facts: Facts, size: int) -> Iterator[str]:
    header = facts.header
    yield f"{header.program or 'a program without a name'}, {header.go_version}, process {header.process}, begun {time_text(header.wall)}\n"
    total = facts.points[-1].sums if facts.points else None
    if total is None:
        yield "Nothing was recorded.\n"
        return
    yield f"{total.mallocs:,} objects, {total.riders:,} of them in the tiny block of another one; {total.empty:,} of size 0; {total.collections} mark ends, {total.sweeps:,} sweeps; {len(facts.stacks):,} stacks; {size_text(size)}\n"
    if facts.left_out:
        why = REASONS.get(header.state, "")
        yield f"Whole up to ticket {facts.missing - 1:,}; {facts.left_out:,} events behind it are left out: {why}.\n"
    if header.every > 1:
        yield f"The stacks of each {header.every}th object alone were recorded.\n"


def closing(facts: Facts) -> Iterator[str]:
    """What stands beside the heap, and what the runtime did besides."""
    last = facts.points[-1].sums
    yield f"Beside the heap at the end: {size_text(last.stack_in_use)} of goroutine stacks, {size_text(last.others_in_use)} of bitmaps and the collector's work buffers.\n"
    if last.flushes:
        yield f"A processor's cache was flushed in mid-cycle {last.flushes:,} times (ReadMemStats, GOMAXPROCS, idle processors).\n"
    for point in facts.points:
        if differences := point.differences():
            yield f"{point.name}: {'; '.join(differences)}\n"
    yield sampled_text(facts, last)


def sampled_text(facts: Facts, last: Sums) -> str:
    """What Go's own profile sampled."""
    if not facts.rate:
        return "Go's own heap profile was off.\n"
    if facts.rate == 1:
        return f"Go's own heap profile had each of {last.sampled:,} objects (rate 1).\n"
    samples = profiles(facts)
    guess = sum(one.estimated_size for one in samples)
    size = sum(one.size for one in samples)
    return f"Go's own heap profile (rate {facts.rate:,}) sampled {last.sampled:,} of the objects: by it {size_text(guess)} were allocated, in fact {size_text(size)}.\n"


def by_function(samples: Iterable[Sample], labels: Dict[int, str]) -> List[List]:
    """The sums of each function: objects, bytes, sampled objects, and the estimates."""
    found: Dict[str, List] = {}
    for one in samples:
        label = labels.get(one.stack, "(stack not recorded)")
        sums = found.setdefault(label, [label, 0, 0, 0, 0.0, 0.0])
        for at, value in enumerate(one[1:], 1):
            sums[at] += value
    return sorted(found.values(), key=lambda sums: (-sums[2], sums[0]))


def profile_rows(facts: Facts, names: Names, top: int, is_plain: bool) -> Iterator[List[str]]:
    size, count = (plain, plain) if is_plain else (size_text, grouped)
    yield ["function", "objects", "bytes", "sampled", "estimated objects", "estimated bytes"]
    labels = {}
    for number, stack in facts.stacks.items():
        frames = who(names.frames(stack))
        labels[number] = frames[0].function if frames else "(no frames)"
    for label, objects, total, sampled, guess, guessed in by_function(profiles(facts), labels)[:top]:
        yield [label, count(objects), size(total), count(sampled), count(guess), size(guessed)]


def lines_of(recording: Recording, options: argparse.Namespace) -> Iterator[str]:
    facts = Facts(recording)
    points = [point for point in facts.points if options.all or point.name != "ReadMemStats"]
    if not options.csv:
        yield from heading(facts, os.path.getsize(recording.path))
    if not facts.points:
        return
    if not options.profile:
        yield from table(rows_of(points, options.csv), options.csv)
        if not options.csv:
            yield from closing(facts)
        return
    names, why = names_of(recording, facts.stacks.values(), options.program)
    if why:
        print(f"facts: functions are told by their addresses: {why}", file=sys.stderr)
    if not options.csv:
        yield sampled_text(facts, facts.points[-1].sums)
    yield from table(profile_rows(facts, names, options.top, options.csv), options.csv)


def main(words: Sequence[str]) -> int:
    options = options_of(words)
    with tool.Output(options.output) as out, Recording(options.recording) as recording:
        for line in lines_of(recording, options):
            out.write(line)
    return 0


def command() -> None:
    tool.end("facts", main, sys.argv[1:])
