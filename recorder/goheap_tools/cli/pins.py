"""Says why memory did not come back: of a trace and its report, what the backed bytes are, and whose objects keep which spans.

    goheap run < trace > report
    recorder/pins trace report --stacks stacks

It counts at a mark end, the last one where none is named, over the spans that are kept then. docs/recording.md says what each number is.
"""

import argparse
import csv
import json
import sys
from typing import List

from goheap_tools import tool
from goheap_tools.formats.stacks import Stacks, stack_file
from goheap_tools.heap import pinning
from goheap_tools.heap.pinning import Names
from goheap_tools.views.pin_tables import lines, tables, told

def options_of(words: List[str]) -> argparse.Namespace:
    parser = argparse.ArgumentParser(prog="pins", description=__doc__.split("\n\n")[0])
    parser.add_argument("trace", help="a trace; - is standard input")
    parser.add_argument("report", help="what goheap printed of the trace; - is standard input")
    parser.add_argument("--stacks", help="the stacks that `record` wrote; stacks of the same frames are then one")
    pinning.add_mark_end(parser)
    parser.add_argument("--functions", action="store_true", help="a row for each function in place of each stack")
    parser.add_argument("--cum", action="store_true", help="the functions in order of what they and those that they call pin")
    parser.add_argument("--without", nargs="+", default=[], metavar="STACK", help="what would come back without the objects of these stacks: numbers or functions")
    parser.add_argument("--top", type=tool.number(1, 10**9), default=20, help="how many stacks or functions (default 20)")
    parser.add_argument("--frames", action="store_true", help="print whole stacks")
    parser.add_argument("--output", "-o", default="-", help="a file for the tables (default: standard output)")
    parser.add_argument("--csv", action="store_true", help="print all rows as CSV; the first field is the name of a row's table")
    parser.add_argument("--json", action="store_true", help="print all rows as JSON, with plain numbers")
    options = parser.parse_args(words)
    if options.trace == options.report == "-":
        parser.error("the trace and the report cannot both be standard input")
    if options.functions and (options.frames or not options.stacks):
        parser.error("--functions needs --stacks, and has no --frames")
    if options.cum and not options.functions:
        parser.error("--cum is for --functions")
    return options


def main(words: List[str]) -> int:
    options = options_of(words)
    with tool.Output(options.output) as out:
        stacks = stack_file(options.stacks) if options.stacks else Stacks({}, {}, {})
        pins, names = pinning.pins_of(options.trace, options.report, options, stacks), Names(stacks.frames)
        if options.json:
            out.write(json.dumps(told(pins, names, options), indent=1) + "\n")
        elif options.csv:
            csv.writer(out, lineterminator="\n").writerows(tables(pins, names, options))
        else:
            for line in lines(pins, names, options):
                out.write(line + "\n")
    return 0


def command() -> None:
    tool.end("pins", main, sys.argv[1:], tells=True)
