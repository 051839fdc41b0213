"""Makes of a recording that a program made of itself the three files that the other tools read: a trace, the report of what Go's own runtime
did, and the stacks.

    recorder/pair server.heap

writes server.trace, server.report and server.stacks. The report is the real heap's and not a model's: `explain` says whether it obeys the rules,
and `leaks`, `pins`, `picture` and `compare` look at it.
"""

import argparse
import hashlib
import os
import sys
from typing import Iterable, Iterator, Sequence

from goheap_tools import tool
from goheap_tools.inside.names import Names, names_of
from goheap_tools.inside.pair import CHUNK_PAGES, Pair, pair_of, report_lines, trace_lines
from goheap_tools.inside.recording import Recording
from goheap_tools.tool import day_text


def options_of(words: Sequence[str]) -> argparse.Namespace:
    parser = argparse.ArgumentParser(prog="pair", description=__doc__.split("\n\n")[0], usage="%(prog)s [options] recording")
    parser.add_argument("recording", help="as `record` wrote it")
    parser.add_argument("--output", "-o", metavar="FRONT", help="the files' common front (default: the recording's name without its ending)")
    parser.add_argument("--program", help="the program's file, for the names of functions (default: those behind the recording, or the file that it names)")
    return parser.parse_args(words)


def stacks_header(recording: Recording, pair: Pair, digest: str) -> Iterator[str]:
    """What the other tools have to know of the recording."""
    values = {
        "program": os.path.basename(recording.header.program),
        "go": recording.header.go_version,
        "date": day_text(recording.header.wall),
        "rate": 1,
        "chunks": pair.chunks,
        "procs": pair.processors,
        "objects": len(pair.answers),
        "mark ends": pair.last,
        "behind": pair.behind,
        "stacks": len(pair.stacks),
        "memory": " ".join(f"{heap}:{stacks}" for heap, stacks in pair.memory),
        "digest": digest,
    }
    yield "# goheap stacks 2\n"
    yield from (f"# {name}\t{value}\n" for name, value in values.items() if value is not None)


def stack_lines(recording: Recording, pair: Pair, names: Names) -> Iterator[str]:
    """A line a stack: its number in the trace, the type of its objects, and its frames."""
    stacks = recording.stacks()
    for known, number in pair.stacks.items():
        stack = stacks.get(known)
        words = [str(number), (names.type_name(stack) if stack else None) or ""]
        words += [f"{frame.function} {frame.file}:{frame.line}" for frame in (names.frames(stack) if stack else ())]
        yield "\t".join(words) + "\n"


def write(path: str, lines: Iterable[str]) -> str:
    """Writes the file, whole or not at all; the digest of its text."""
    digest = hashlib.sha1()
    with tool.Output(path) as out:
        for line in lines:
            digest.update(line.encode())
            out.write(line)
    return digest.hexdigest()


def main(words: Sequence[str]) -> int:
    options = options_of(words)
    front = options.output or os.path.splitext(options.recording)[0]
    with Recording(options.recording) as recording:
        pair = pair_of(recording)
        stacks = recording.stacks()
        names, why = names_of(recording, [stacks[known] for known in pair.stacks if known in stacks], options.program)
        if why:
            print(f"pair: functions are told by their addresses: {why}", file=sys.stderr)
        digest = write(front + ".trace", trace_lines(pair))
        write(front + ".report", report_lines(pair))
        write(front + ".stacks", [*stacks_header(recording, pair, digest), *stack_lines(recording, pair, names)])
    told = f"{len(pair.answers):,} objects, {pair.last} mark ends, {len(pair.sweeps):,} sweeps, {len(pair.journal):,} journal lines"
    left = f"; {pair.behind:,} objects behind the last mark end that was swept whole are left out" if pair.behind else ""
    print(f"pair: {front}.trace, {front}.report, {front}.stacks: {told}{left}", file=sys.stderr)
    return 0


def command() -> None:
    tool.end("pair", main, sys.argv[1:])
