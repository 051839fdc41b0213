"""Says what is wrong with a report of goheap: the rule that it breaks first and its first line that does, as `goheap check` tells them, with
what the rule asks, which objects, spans and lines are meant, and what should stand there.

    recorder/explain trace report

The rules are those of docs/sound-report.md, tried here by themselves. A sound report is told so, with status 0; of another one the status is 1. A
report whose text is none is told by its first line that is malformed.
"""

import argparse
import io
import itertools
import sys
from typing import Dict, Iterator, List

from goheap_tools import progress, tool
from goheap_tools.formats import companions
from goheap_tools.formats.frames import shown_frames
from goheap_tools.formats.lines import is_kind, opened
from goheap_tools.formats.report_text import lines_of, strict_report, text_fault
from goheap_tools.formats.stacks import Stacks, stack_file
from goheap_tools.formats.trace_text import fault_of
from goheap_tools.formats.traces import REAL, Trace, read
from goheap_tools.heap import tiny
from goheap_tools.heap.rules import NAMES, first_fault

ASKS = {
    1: "There is one answer for each object, `zero` exactly for size 0.",
    2: "The journal is one that the pages and page caches can have: first fit, spans of their class's size, whole spans given back, scavenging by its steps, blocks that are dropped, no later cycle than the last.",
    3: "A missed object names a miss of its pages, span class and cycle, and no two name one line.",
    4: "A placed object sits in exactly one span, a slot of its size, which is not given back while the object lives.",
    5: "Objects that live in one cycle do not overlap.",
    6: "In a cycle a small span has one processor, is filled from its lowest free slot, and is full before its processor goes on to another span of the class.",
    7: "Each span that a mark end finds is swept once in the cycle behind it, with what was kept and freed, and given back where nothing is kept, unless it is used again.",
    8: "Each size class with placed objects has one line: how many, and how many of them do not live in the last cycle.",
    9: "A profile line tells how many objects of a stack and a slot size were sampled before a mark end, and how many of them it does not mark; none is left out.",
    10: "A tiny object that rides in the block of another stands there, at its offset behind that one's address.",
}
# Those of a real run that differ.
REAL_ASKS = {
    2: "The journal is one that the pages and page caches can have: first fit over what is free to all, spans of their class's size, whole spans and whole runs given back, lent runs that are backed,"
       " blocks that go back as they are left, no later cycle than the last.",
    6: "In a cycle a small span has one processor up to the flush of that one, is filled from its lowest free slot, and is full before its processor goes on to another span of the class, if it is not flushed before.",
}  # fmt: skip


def asked(trace: Trace, rule: int) -> str:
    """What a rule asks."""
    return REAL_ASKS.get(rule, ASKS[rule]) if trace.version >= REAL else ASKS[rule]


def sound(trace: Trace) -> str:
    """What is said of a report that breaks no rule."""
    return f"The report meets all {'ten' if trace.version >= tiny.FIRST_VERSION else 'nine'} rules: it is sound."


def checked_trace(path: str) -> Trace:
    """The trace in the file. One that is refused is told with its first fault."""
    name = tool.named(path)
    with opened(path) as file:
        data = file.read()
    is_kind(name, data[:100], "a trace")
    fault = fault_of(io.BytesIO(data))
    if fault == (1, "malformed"):
        raise tool.no_trace(name)
    if fault:
        raise tool.Unusable(f"{name}: line {fault[0]}: {fault[1]}: this trace is refused, and nothing is judged by it")
    return read(io.BytesIO(data), name)


def explanation(trace: Trace, data: bytes, frames: Dict[int, List[str]], name: str) -> Iterator[str]:
    """The sentences on the report."""
    progress.stage("reading the report")
    report = strict_report(data)
    if report is None:
        malformed = text_fault(lines_of(data))
        if malformed is None:
            raise tool.Unusable(f"{name}: the text is a report's, and cannot be read")
        yield f"report line {malformed[0]} is malformed: {malformed[1]}."
        return
    fault = first_fault(trace, report, frames)
    if fault is None:
        yield sound(trace)
        return
    line = next(itertools.islice(io.BytesIO(data), fault.line - 1, None))
    yield f"report line {fault.line} breaks rule {fault.rule}, {NAMES[fault.rule]}: `{line.decode('ascii').rstrip()}`"
    yield asked(trace, fault.rule)
    yield from fault.sentences


def main(words: List[str]) -> int:
    parser = argparse.ArgumentParser(prog="explain", description=__doc__.split("\n\n")[0])
    parser.add_argument("trace")
    parser.add_argument("report", help="a report of the trace, whoever wrote it; - is standard input")
    parser.add_argument("--stacks", help="the stacks that `record` wrote, for the names of functions")
    parser.add_argument("--output", "-o", default="-", help="a file for the sentences (default: standard output)")
    options = parser.parse_args(words)
    with tool.Output(options.output) as out:
        stacks = stack_file(options.stacks) if options.stacks else Stacks({}, {}, {})
        progress.stage("reading the trace")
        trace = checked_trace(options.trace)
        companions.of_trace(stacks, trace, (options.stacks, tool.named(options.trace)))
        with opened(options.report) as file:
            data = file.read()
        frames = {number: shown_frames(one) for number, one in stacks.frames.items()}
        is_kind(tool.named(options.report), data[:100], "a report")
        told = list(explanation(trace, data, frames, tool.named(options.report)))
        for sentence in told:
            out.write(sentence + "\n")
    return int(told != [sound(trace)])


def command() -> None:
    tool.end("explain", main, sys.argv[1:], tells=True)
