"""Draws a report of goheap as one SVG: the page map over the journal, and under it backed pages, live spans and objects kept; and how full each span is.

    goheap run < trace | recorder/picture -o picture.svg
    recorder/picture report --pins --trace trace --stacks stacks -o pins.svg

Time goes to the right, from journal line to journal line, and pages go upward. Misses are marked at the top edge. The lowest chart has the
pages as the last mark end found them, from left to right, and how full they are; of some hundred pages and more how many of the spans are how full.
"""

import argparse
import sys
from typing import List

from goheap_tools import tool
from goheap_tools.formats import companions
from goheap_tools.formats.report import report_in
from goheap_tools.formats.stacks import Stacks, stack_file
from goheap_tools.formats.traces import trace_in
from goheap_tools.heap import pinning
from goheap_tools.views import pinmap
from goheap_tools.views.course import check
from goheap_tools.views.picture import draw
from goheap_tools.views.sheet import title_of

def main(words: List[str]) -> int:
    parser = argparse.ArgumentParser(prog="picture", description=__doc__.split("\n\n")[0])
    parser.add_argument("report", nargs="?", default="-", help="a report; - or nothing: standard input")
    parser.add_argument("--title", help="the heading (default: the program, its Go and the day, where the stacks tell them)")
    parser.add_argument("--trace", help="the trace of the report, to tell which stacks hold a span")
    parser.add_argument("--stacks", help="the stacks that `record` wrote, for their names")
    parser.add_argument("--pins", action="store_true", help="draw the page map at a mark end, how full each span is and whose objects keep it")
    parser.add_argument("--functions", action="store_true", help="colour spans by the five functions that hold most")
    pinning.add_mark_end(parser)
    parser.add_argument("--output", "-o", default="-", help="a file for the picture (default: standard output)")
    options = parser.parse_args(words)
    if not options.pins and (options.at or options.peak):
        parser.error("--at and --peak are for --pins")
    if options.pins and not options.trace:
        parser.error("--pins needs --trace")
    if options.functions and not (options.trace and options.stacks):
        parser.error("--functions needs --trace and --stacks")
    with tool.Output(options.output, errors="replace") as out:
        stacks = stack_file(options.stacks) if options.stacks else Stacks({}, {}, {})
        if options.pins:
            pins = pinning.pins_of(options.trace, options.report, options, stacks)
            for line in pinmap.draw(pins, pinning.Names(stacks.frames), title_of(stacks) if options.title is None else options.title, options.functions):
                out.write(line + "\n")
            return 0
        report = report_in(options.report)
        trace = trace_in(options.trace) if options.trace else None
        check(report)
        companions.of_report(stacks, report, (options.stacks, tool.named(options.report)))
        if trace and len(trace.sizes) != len(report.addresses):
            raise tool.Unusable(f"{options.report} has {len(report.addresses)} objects, and {options.trace} has {len(trace.sizes)}: it is no report of this trace")
        for line in draw(report, options.title, trace, stacks, options.functions):
            out.write(line + "\n")
    return 0


def command() -> None:
    tool.end("picture", main, sys.argv[1:], tells=True)
