"""Prints which functions still have objects in use, by the profile of a goheap report, the most bytes first.

    goheap run --each < trace > report
    recorder/leaks report --stacks stacks

The counts are those of the report: what was sampled, by stack and slot size; of all objects at rate 1. Where the rate is above that,
they are what Go's tools estimate from it: the rate is told by the stacks, or by `--scale`. A report at rate 0 has no profile; with
`--trace` the counts are those of all objects of a trace, as rate 1 would sample them. Where the counts of several mark ends are known,
`since` has how the bytes in use grew, and `grew` at how many mark ends they did.
"""

import argparse
import json
import re
import sys
from typing import Dict, Iterable, List, Optional, Pattern, Tuple

from goheap_tools import progress, tool
from goheap_tools.cli import growth
from goheap_tools.formats import companions
from goheap_tools.formats.journal import Miss
from goheap_tools.formats.report import MISSED, Report, report_in
from goheap_tools.formats.stacks import Stacks, stack_file
from goheap_tools.formats.traces import Trace, trace_in
from goheap_tools.heap.classes import PAGE, SLOTS
from goheap_tools.heap.estimate import factor
from goheap_tools.heap.profile import MarkEnd, Profile, buckets_of_report, buckets_of_trace
from goheap_tools.heap.tiny import slot_in
from goheap_tools.tool import size_text
from goheap_tools.views.tables import Buckets, Lines, Table, Types

# Of the objects behind the last mark end, of which nothing tells whether they stay alive, a word is said where they are this part.
MANY_BEHIND = 0.05
# Small and large objects are mixed where each have this part of the bytes that are estimated.
MIXED = 0.05
NO_MARK_END = "run the program with GOGC=20, or call runtime.GC() in it, twice at the end, and record it again"
def expression(text: str) -> Pattern[str]:
    """An argument's type: a regular expression."""
    try:
        return re.compile(text)
    except re.error as error:
        raise argparse.ArgumentTypeError(f"{text!r} is no regular expression: {error}") from None


class Choice:
    """Which stacks a table is of, and which of their frames it shows."""

    def __init__(self, stacks: Stacks, options: argparse.Namespace) -> None:
        self.stacks, self.options = stacks, options
        self.known: Dict[int, bool] = {}

    def shows(self, number: int) -> bool:
        if number not in self.known:
            has = lambda pattern: any(map(pattern.search, self.stacks.frames.get(number, [])))
            focus, ignore = self.options.focus, self.options.ignore
            self.known[number] = (not focus or has(focus)) and not (ignore and has(ignore))
        return self.known[number]

    def stripped(self) -> Stacks:
        """The stacks without the frames that are hidden."""
        hide = self.options.hide
        if not hide:
            return self.stacks
        frames = {number: [frame for frame in frames if not hide.search(frame)] for number, frames in self.stacks.frames.items()}
        return self.stacks._replace(frames=frames)


def options_of(words: List[str]) -> argparse.Namespace:
    parser = argparse.ArgumentParser(prog="leaks", description=__doc__.split("\n\n")[0])
    parser.add_argument("report", nargs="?", help="a report; - is standard input. With --base a recording: a folder, or what the names of its files begin with")
    parser.add_argument("--stacks", help="the stacks that `record` wrote")
    parser.add_argument("--trace", help="count the objects of this trace in place of a report's profile; with a report, its misses are left out")
    parser.add_argument("--top", type=tool.number(1, 10**9), default=20, help="how many rows (default 20)")
    kind = parser.add_mutually_exclusive_group()
    for name, table, what in (("functions", Table, "function, with what those that it calls have in use (default)"), ("lines", Lines, "line of the program"),
                              ("types", Types, "type"), ("buckets", Buckets, "stack and slot size (default without --stacks)")):  # fmt: skip
        kind.add_argument(f"--{name}", action="store_const", const=table, dest="table", help=f"a row for each {what}")
    parser.add_argument("--sort", choices=("flat", "cum", "allocated", "grew"), default="flat", help="which column's greatest rows come first (default flat)")
    parser.add_argument("--frames", action="store_true", help="print each bucket's whole stack")
    at = parser.add_mutually_exclusive_group()
    at.add_argument("--at", type=tool.number(1, 1_000_000), metavar="N", help="as of mark end N (default: the last one)")
    at.add_argument("--peak", action="store_true", help="as of the mark end with the most bytes in use")
    parser.add_argument("--focus", type=expression, metavar="REGEXP", help="only objects whose stack has a frame that this expression finds, as `go tool pprof` does")
    parser.add_argument("--ignore", type=expression, metavar="REGEXP", help="no objects whose stack has such a frame")
    parser.add_argument("--hide", type=expression, metavar="REGEXP", help="leave such frames out of the stacks")
    parser.add_argument("--scale", type=tool.number(0, 1 << 30), metavar="RATE", help="estimate the counts without sampling, from those sampled at this rate (default: the rate that the stacks tell; 0: don't)")
    parser.add_argument("--base", metavar="OLD", help="what grew since this recording: its folder, or what the names of its files begin with")
    parser.add_argument("--fail-over", type=growth.limit, metavar="LIMIT", help="end with status 1 where a row grew by more since the base: bytes, as 64KB, or a part of what is in use there, as 5%%")
    parser.add_argument("--json", action="store_true", help="print all rows as JSON, with plain numbers")
    parser.add_argument("--output", "-o", default="-", help="a file for the table (default: standard output)")
    options = parser.parse_args(words)
    options.place = ""
    check_options(parser, options)
    return options


def check_options(parser: argparse.ArgumentParser, options: argparse.Namespace) -> None:
    """Refuses options that do not go together, and sets the table where none is named."""
    if options.fail_over and not options.base:
        parser.error("--fail-over needs --base")
    if options.base:
        given = (options.trace, options.stacks, options.scale, options.at, options.peak, options.frames, options.focus, options.ignore, options.hide)
        if not options.report or any(given) or options.table is Buckets:
            parser.error("--base OLD goes with NEW, and with functions, lines or types of the last mark ends")
        options.table = options.table or Table
        return
    options.filters = [f"; {name} {getattr(options, name).pattern}" for name in ("focus", "ignore", "hide") if getattr(options, name)]
    if options.filters and not options.stacks:
        parser.error("--focus, --ignore and --hide need --stacks")
    if not (options.report or options.trace):
        parser.error("neither a report nor a trace was given")
    if options.table in (Table, Lines, Types) and not options.stacks:
        parser.error("without --stacks there are no functions, lines and types")
    if options.frames and options.table not in (None, Buckets):
        parser.error("--frames is for --buckets")
    if options.trace and options.scale:
        parser.error("--trace counts all objects, so that --scale has nothing to estimate")
    if options.table is None:
        options.table = Table if options.stacks and not options.frames else Buckets
    if options.sort == "cum" and not options.table.has_cum:
        parser.error(f"{options.table.what} have no cum")


def say(text: str) -> None:
    progress.erase()
    print(f"leaks: {text}", file=sys.stderr)


def take_rate(stacks: Stacks, options: argparse.Namespace) -> None:
    """The rate by which the counts are estimated: as given, or as the stacks tell."""
    options.rate = stacks.number("rate")
    options.rate_is_known = options.rate is not None
    if options.trace:
        options.scale = 0
    elif options.scale is None:
        options.scale = options.rate or 0
    elif options.rate_is_known and options.scale > 1 and options.scale != options.rate:
        say(f"{options.stacks} says that the rate was {options.rate}; it is taken as {options.scale}, as asked for")


def up_to(mark_ends: Iterable[MarkEnd], options: argparse.Namespace, rate: int) -> List[MarkEnd]:
    """The mark ends up to the one that is to be shown."""
    mark_ends = [(number, list(buckets)) for number, buckets in mark_ends]
    if not mark_ends:
        return mark_ends
    last = mark_ends[-1][0]
    at = peak_of(mark_ends, rate) if options.peak else options.at or last
    if at > last:
        raise tool.Unusable(f"there are mark ends 1 to {last}, and no {at}")
    if len(mark_ends) == 1 and last > 1 and (options.peak or at < last):
        raise tool.Unusable(f"the report has the profile of mark end {last} alone: make it with `goheap run --each`")
    options.place = f" of {last}" if at < last or options.peak else ""
    shown = [(number, buckets) for number, buckets in mark_ends if number <= at]
    # Where no bucket changed the report has no line.
    return shown if shown and shown[-1][0] == at else [*shown, (at, [])]


def peak_of(mark_ends: Iterable[MarkEnd], rate: int) -> int:
    """The mark end with the most bytes in use."""
    counts, used, most, peak = {}, 0.0, -1.0, 0
    for number, buckets in mark_ends:
        for bucket in buckets:
            now = (bucket.allocs - bucket.frees) * bucket.slot * factor(bucket.slot, rate)
            used += now - counts.get((bucket.stack, bucket.slot), 0)
            counts[bucket.stack, bucket.slot] = now
        if used > most + 0.5:
            most, peak = used, number
    return peak


def tell_misses(report: Report, trace: Optional[Trace]) -> None:
    """Says how many objects found no room: they are in no count."""
    missed = [one for one, address in enumerate(report.addresses) if address == MISSED]
    if missed:
        slots = (slot_in(trace, trace.sizes[one], bool(trace.pointers[one])) for one in missed) if trace else (SLOTS[line.span_class // 2] or line.pages * PAGE for line in report.journal if isinstance(line, Miss))
        say(f"{len(missed)} of {len(report.addresses)} objects ({size_text(sum(slots))}) found no room in the region, and are counted nowhere: the table is too low"
            " (--trace without a report counts them too)")  # fmt: skip


def tell_mixed(mark_ends: List[MarkEnd], rate: int) -> None:
    """Says that an estimate is too low for small objects beside large ones. A large one is sampled nearly always, and begins a new distance; here
    distances are uniform, so that the small ones behind it are sampled less often than by themselves."""
    estimated: Dict[bool, float] = {False: 0.0, True: 0.0}
    last = {(bucket.stack, bucket.slot): bucket for _, buckets in mark_ends for bucket in buckets}
    for bucket in last.values():
        estimated[2 * bucket.slot >= rate] += bucket.allocs * bucket.slot * factor(bucket.slot, rate)
    total = sum(estimated.values())
    if rate > 1 and total and min(estimated[False], estimated[True]) > MIXED * total:
        say(f"small objects stand beside some of the rate's size ({rate} bytes) and more: their estimate may be much too low, by distances that are uniform here (docs/recording.md); record at rate 1")


def tell_behind(behind: Optional[int], objects: Optional[int]) -> None:
    """Says how many objects came behind the last mark end, of which nothing tells whether they stay alive."""
    if behind and objects and behind > MANY_BEHIND * objects:
        say(f"{100 * behind / objects:.0f} % of the objects ({behind} of {objects}) came behind the last mark end, and are in no count")


def behind_of(stacks: Stacks, trace: Optional[Trace]) -> Tuple[Optional[int], Optional[int]]:
    """The objects behind the last mark end, and all objects, where the trace or the stacks tell them."""
    if trace:
        return len(trace.sizes) - trace.born[-1] if trace.mark_ends else None, len(trace.sizes)
    return (stacks.number("behind") if stacks.number("mark ends") else None), stacks.number("objects")


def no_profile(stacks: Stacks, trace: Optional[Trace], options: argparse.Namespace) -> str:
    """Why there is no table, and what to do."""
    mark_ends = trace.mark_ends if trace else stacks.number("mark ends")
    if mark_ends == 0:
        return f"{options.trace or options.report}: there was no mark end, so nothing tells what stays alive: {NO_MARK_END}"
    if options.rate == 0:
        return f"{options.report}: the rate is 0, so nothing was sampled: record with --rate 1, or count a trace's objects with --trace"
    return f"{options.trace or options.report}: there is no profile: there was no mark end ({NO_MARK_END}), or the rate is 0 or nothing was sampled (see --trace)"


def read_all(options: argparse.Namespace) -> Tuple[Stacks, Optional[Report], Optional[Trace]]:
    """The stacks, the report and the trace, which must be of one recording."""
    stacks = stack_file(options.stacks) if options.stacks else Stacks({}, {}, {})
    report = report_in(options.report) if options.report else None
    trace = trace_in(options.trace) if options.trace else None
    if report and trace and len(report.addresses) != len(trace.sizes):
        raise tool.Unusable(f"{options.report} has {len(report.addresses)} objects, and {options.trace} has {len(trace.sizes)}: it is no report of this trace")
    if report:
        companions.of_report(stacks, report, (options.stacks, tool.named(options.report)))
        if not trace:
            companions.of_rate(stacks, report, (options.stacks, tool.named(options.report)))
    if trace:
        companions.of_trace(stacks, trace, (options.stacks, tool.named(options.trace)))
    return stacks, report, trace


def main(words: List[str]) -> int:
    options = options_of(words)
    with tool.Output(options.output) as out:
        if options.base:
            return growth.compare(options, out)
        stacks, report, trace = read_all(options)
        take_rate(stacks, options)
        mark_ends = buckets_of_trace(trace, report.addresses if report else None) if trace else buckets_of_report(report or Report())
        choice = Choice(stacks, options)
        stacks = choice.stripped()
        ends = up_to(mark_ends, options, options.scale)
        profile = Profile(ends, options.table.key(stacks), options.scale, choice.shows)
        if not profile.all.allocs:
            raise tool.Unusable(no_profile(stacks, trace, options))
        tell_mixed(ends, options.scale)
        if report:
            tell_misses(report, trace)
        if not options.place:
            tell_behind(*behind_of(stacks, trace))
        table = options.table(profile, stacks, options)
        if options.json:
            out.write(json.dumps(table.told(), indent=1) + "\n")
        else:
            for line in table.lines():
                out.write(line + "\n")
    return 0


def command() -> None:
    tool.end("leaks", main, sys.argv[1:], tells=True)
