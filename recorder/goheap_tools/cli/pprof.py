"""Makes of a heap text of goheap, or of a report, and a recording's stacks a profile that `go tool pprof` opens, with functions, files and lines.

    cat trace report | goheap heap | recorder/pprof stacks > heap.pb.gz
    recorder/pprof server.stacks server.report > heap.pb.gz
    go tool pprof -top heap.pb.gz

The profile has the four sample types of Go's own heap profiles, alloc_objects, alloc_space, inuse_objects and inuse_space, and the rate
as its period. The numbers are those of the heap text, or of a report's profile of the last mark end, to the byte: of the objects that were sampled, which at rate 1 are all. With
`--scale` they are what Go's tools estimate of all objects.
"""

import argparse
import gzip
import itertools
import sys
from typing import List

from goheap_tools import tool
from goheap_tools.formats import companions
from goheap_tools.formats.heaptext import Heap, heap_of, read_heap
from goheap_tools.formats.pprof import profile_of
from goheap_tools.formats.report import read_report
from goheap_tools.formats.stacks import Stacks, stack_file

def options_of(words: List[str]) -> argparse.Namespace:
    parser = argparse.ArgumentParser(prog="pprof", description=__doc__.split("\n\n")[0])
    parser.add_argument("stacks", help="the stacks that `record` wrote")
    parser.add_argument("heap", nargs="?", default="-", help="the heap text that `goheap heap` wrote, or a report, such as that of a real run (default: standard input)")
    parser.add_argument("--scale", action="store_true", help="estimate the numbers of all objects from those that were sampled, as Go's tools do")
    parser.add_argument("--output", "-o", default="-", help="a file for the profile (default: standard output)")
    return parser.parse_args(words)


def heap_in(path: str, stacks: Stacks) -> Heap:
    """The heap text in the file, or what the profile of the report there comes to; - is standard input."""
    with tool.reading(path) as file:
        first = file.readline()
        lines = itertools.chain([first] if first else [], file)
        if tool.kind_of(first) != "a report":
            return read_heap(lines, tool.named(path))
        report = read_report(lines, tool.named(path))
    companions.of_report(stacks, report, ("the stacks", tool.named(path)))
    rate = stacks.number("rate")
    if rate is None:
        raise tool.Unusable(f"{path}: the stacks do not tell the rate of this report")
    return heap_of(report, rate)


def main(words: List[str]) -> int:
    options = options_of(words)
    if options.stacks == "-" == options.heap:
        raise tool.Unusable("the stacks and the heap text cannot both be standard input")
    stacks = stack_file(options.stacks)
    heap = heap_in(options.heap, stacks)
    rate = stacks.number("rate")
    if rate is not None and rate != heap.rate:
        raise tool.Unusable(f"the stacks are of a recording at rate {rate}, and the heap text of one at rate {heap.rate}")
    data = gzip.compress(profile_of(heap, stacks, options.scale), mtime=0)
    with tool.Output(options.output, binary=True) as out:
        out.write(data)
    return 0


def command() -> None:
    tool.end("pprof", main, sys.argv[1:])
