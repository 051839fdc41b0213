"""Makes a goheap trace of a Go program's allocations: runs the program, or reads what it wrote under GODEBUG=allocfreetrace=1.

    recorder/record [OPTIONS] -- ./program ARGUMENTS
    recorder/record log --program ./program --stacks stacks --output trace

The first form runs the program, and writes the files `trace` and `stacks`. Each allocation is an `a` line with the size as asked for, with
or without pointers, and the number of its stack; each collection is a `gc` line, and its `m` lines name the objects that it found alive:
those that no `tracefree` of the sweep behind it names. The log is read as it comes. Files are written when they are whole.
"""

import argparse
import contextlib
import hashlib
import os
import shutil
import sys
import time
from collections import Counter
from typing import Any, Iterator, List, Optional

from goheap_tools import tool
from goheap_tools.cli.recording import CHUNK_PAGES, MOST_CHUNKS, MOST_MARK_ENDS, MOST_PROCS, PIECE, USUAL_CHUNKS, VERSIONS, Recorder
from goheap_tools.cli.running import Interrupt, Log, Run, told_pieces
from goheap_tools.formats import golog
from goheap_tools.formats.packed import log_in
from goheap_tools.formats.program import READ_VERSIONS, Program
from goheap_tools.heap import tiny
from goheap_tools.heap.classes import slot_of
from goheap_tools.tool import number, size_text

# Of what is left out or guessed, a word is said where it is more than one in so many.
RARE = 1000
# Bytes of buffers for what children write, of which a word is said.
MUCH = 1 << 16


def options_of(words: List[str]) -> argparse.Namespace:
    at = words.index("--") if "--" in words else len(words)
    parser = argparse.ArgumentParser(prog="record", description=__doc__.split("\n\n")[0], usage="%(prog)s [options] [log | -- program arguments]")
    parser.add_argument("log", nargs="?", help="the log; - or nothing: standard input")
    parser.add_argument("--program", help="the program that wrote the log, to tell which types have pointers (else their names tell, roughly)")
    parser.add_argument("--stacks", help="a file for the stacks, with what the other tools have to know of the recording (default `stacks` where a program is run)")
    parser.add_argument("--trim", action="append", default=[], metavar="PREFIX", help="leave this beginning of file names out of the stacks; may be given again")
    parser.add_argument("--output", "-o", help="the trace (default: standard output, and `trace` where a program is run)")
    parser.add_argument("--keep-last", action="store_true", help="keep a last mark end with no collection behind it: right for a program that ends in runtime.GC()")
    parser.add_argument("--from-mark-end", type=number(1, MOST_MARK_ENDS), metavar="N", help="begin at mark end N of the log; the objects that it found alive come first")
    parser.add_argument("--version", type=int, choices=VERSIONS, default=VERSIONS[0], help="of the trace: from 2 on its processors have page caches, and a region may have more chunks; in 3 tiny objects share blocks (default 1)")
    parser.add_argument("--chunks", type=number(1, max(MOST_CHUNKS.values())), help=f"chunks of 4 MiB of the region (default: as many as the log needs, at least {USUAL_CHUNKS}; at most {MOST_CHUNKS[1]} in version 1)")
    parser.add_argument("--procs", type=number(1, MOST_PROCS), help="processors; a goroutine's objects are all on one (default: as many as the log's program had, or 1)")
    parser.add_argument("--rate", type=number(0, 1 << 30), default=1, help="bytes between two samples (default 1, every object; 0: none)")
    parser.add_argument("--seed", type=number(0, (1 << 64) - 1), default=1, help="of the sampling (default 1)")
    parser.add_argument("--goal", type=number(0, max(MOST_CHUNKS.values()) * CHUNK_PAGES), help="pages down to which is scavenged (default: as many as the region has, never)")
    parser.add_argument("--distance", type=number(1, 1 << 40), default=4194304, help="bytes that may be allocated between two mark ends, for the pacing of sweeps (default 4194304)")
    parser.add_argument("--tiny-blocks", action=argparse.BooleanOptionalAction, default=True, help="write an object of less than 16 bytes without pointers as the block of 16 bytes that it begins, in which Go puts later tiny objects that are not in the log (default, in each version)")
    parser.add_argument("--verbose", action="store_true", help="tell of all that is left out or guessed, however little")
    options = parser.parse_args(words[:at])
    options.command = words[at + 1 :]
    if "--" in words and not options.command:
        parser.error("no program stands behind --")
    if options.command and options.log:
        parser.error("a log and a program to run were given")
    most = MOST_CHUNKS[options.version]
    for name, value, limit in (("chunks", options.chunks, most), ("goal", options.goal, most * CHUNK_PAGES)):
        if value is not None and value > limit:
            parser.error(f"--{name} {value}: a trace of version {options.version} has at most {limit}")
    options.asked = options.output, options.stacks
    if options.command:
        options.output = options.output or "trace"
        options.stacks = options.stacks or "stacks"
    else:
        options.output = options.output or "-"
        options.log = options.log or "-"
    return options


def say(text: str) -> None:
    print(f"record: {text}", file=sys.stderr)


def percent(part: float, total: float) -> str:
    return f"{100 * part / total:.1f} %" if total else "0 %"


def tell_end(recorder: Recorder, log: Any) -> None:
    """Says where the trace ends before the log or the program does."""
    if log.interrupt.came:
        say("interrupted; the trace ends where the log was then, and is whole")
    if recorder.other:
        what = "run that one alone" if log.is_run else "record each by itself"
        say(f"a second program starts at line {recorder.other} of the log (what a program starts inherits GODEBUG); the trace is of the first one up to there: {what}")
    if recorder.full:
        say(f"the trace ends at the limit of {recorder.full}; it is whole up to there (see --from-mark-end)")
    if log.is_run and log.stopped:
        say("the program was stopped there")
    elif log.is_run and log.process.returncode and not log.interrupt.came:
        say(f"the program ended with {log.status()}")


def tell_last(recorder: Recorder) -> None:
    """Says what of the last mark end is left out, and what to do for a trace without one."""
    trace = recorder.trace
    if recorder.left_out:
        objects, size, behind = recorder.left_out
        with_it = f", with {behind:,} objects behind it ({percent(behind, trace.objects + behind)})" if behind else ""
        say(f"mark end {recorder.log_mark_ends} is the log's last, and nothing tells that it was swept whole: it is left out{with_it}. It would count {objects:,} objects ({size_text(size)}) as alive, and with them those that were still to be freed."
            " --keep-last keeps it, right for a program that ends in runtime.GC()")
    if trace.objects and not trace.mark_ends:
        say("the trace has no mark end, so nothing tells what stays alive: run the program with GOGC=20, or call runtime.GC() in it, twice at the end")


def tell_lost(recorder: Recorder, log: Log) -> None:
    """Says what the trace leaves out or guesses, where it is more than a trifle."""
    shows = lambda count, of: count and (recorder.options.verbose or count * RARE > of)
    if recorder.children_bytes >= MUCH:
        say(f"{size_text(recorder.children_bytes)} of what was allocated are buffers in which the program collects what its children write (os/exec). A child that is a Go program inherits GODEBUG, so its own log"
            " is in there: that much is of the recording, and not of the program")
    if shows(recorder.broken, recorder.allocations + recorder.frees):
        first = recorder.first_broken
        say(f"{recorder.broken} blocks of the log were not whole and are left out; the first at line {first.line}: {first.what}")
    if not log.is_run and shows(recorder.foreign, recorder.lines):
        torn = f", {recorder.torn} of them torn by a block" if recorder.torn else ""
        say(f"{recorder.foreign} lines of the log are of no block, and are passed over as the program's own{torn}; the first at line {recorder.first_foreign.line}")
    if shows(recorder.unknown_frees, recorder.frees):
        say(f"{recorder.unknown_frees} freed objects have no allocation in the log (of a program's first objects some have none; many: the log's beginning is missing)")
    if shows(recorder.lost_frees, recorder.allocations):
        say(f"{recorder.lost_frees} objects were overwritten without a free in the log, and are taken as freed")
    if shows(recorder.sizes_guessed, recorder.allocations):
        say(f"{recorder.sizes_guessed} allocations have no size as asked for; their slot's size is taken")
    if shows(recorder.guessed, recorder.allocations):
        say(f"of {recorder.guessed} allocations the type's name alone says whether there are pointers" + ("" if recorder.program else " (see --program)"))


def tell(recorder: Recorder, log: Any) -> None:
    if other := other_version(recorder.program):
        say(f"{other}, and others perhaps wrongly")
    tell_end(recorder, log)
    tell_last(recorder)
    tell_lost(recorder, log)
    trace = recorder.trace
    say(f"{trace.objects} objects, {trace.mark_ends} mark ends, {trace.marks} marked objects, {len(recorder.frames)} stacks")
    options = recorder.options
    if log.is_run and options.output != "-":
        say(f"written to {options.output} and {options.stacks}; for a table: leaks --trace {options.output} --stacks {options.stacks}")


def apart(options: argparse.Namespace) -> None:
    """Refuses to write over what is read, and two files into one; and by names of its own over what is no text of goheap's."""
    names = [name for name in (options.log, options.program, *options.command[:1], options.output, options.stacks) if name and name != "-"]
    real = [os.path.realpath(name) for name in names]
    for at, name in enumerate(names):
        if real[at] in real[:at] and (os.path.isfile(name) or not os.path.exists(name)) and name in (options.output, options.stacks):
            raise tool.Unusable(f"{name} is named twice")
    for asked, name, kind in zip(options.asked, (options.output, options.stacks), ("a trace", "a stacks file")):
        if options.command and asked is None and os.path.isfile(name) and os.path.getsize(name):
            with open(name, errors="replace") as file:
                if tool.kind_of(file.readline()) != kind:
                    raise tool.Unusable(f"{name} is there, and is not {kind}: name another file")


def program_of(options: argparse.Namespace) -> Optional[Program]:
    """The program's file, where one is named or run."""
    if options.program:
        return Program(options.program)
    path = options.command and shutil.which(options.command[0])
    try:
        return Program(path) if path else None
    except tool.Unusable:
        return None


def slots_text(recorder: Recorder) -> Optional[str]:
    """How many objects of the trace have a slot of each size; nothing where tiny ones share some, so that the sizes do not tell."""
    if recorder.options.version >= tiny.FIRST_VERSION and not recorder.options.tiny_blocks:
        return None
    slots = Counter()
    for size, count in recorder.trace.sizes.items():
        slots[slot_of(int(size)) if int(size) else 0] += count
    return " ".join(f"{slot}:{count}" for slot, count in sorted(slots.items()) if slot)


def recorded_at(options: argparse.Namespace) -> float:
    """When the program ran: now, or when its log was written."""
    return os.path.getmtime(options.log) if options.log and os.path.isfile(options.log) else time.time()


def stacks_header(recorder: Recorder, digest: str) -> Iterator[str]:
    """The first lines of the stacks file: what the other tools have to know of the recording."""
    trace, options, program = recorder.trace, recorder.options, recorder.program
    values = {
        "program": program and program.name,
        "go": program and program.go_version,
        "date": tool.day_text(recorded_at(options)),
        "rate": options.rate,
        "chunks": recorder.chunks(),
        "procs": recorder.procs or 1,
        "objects": trace.objects,
        "mark ends": trace.mark_ends,
        "behind": trace.behind,
        "stacks": len(recorder.frames),
        "frames": " ".join(map(str, recorder.stack_bytes)) if any(recorder.stack_bytes) else None,
        "slots": slots_text(recorder),
        "limit": recorder.full,
        "from mark end": options.from_mark_end,
        "digest": digest,
    }
    yield "# goheap stacks 2\n"
    for name, value in values.items():
        if value is not None:
            yield f"# {name}\t{value}\n"


def other_version(program: Optional[Program]) -> Optional[str]:
    """That another Go built the program than those whose log is read, where it is so."""
    if program and program.go_version and not program.is_read():
        return f"{program.name} was built with {program.go_version}; logs of {READ_VERSIONS} are read"
    return None


def no_allocation(options: argparse.Namespace, program: Optional[Program]) -> str:
    """What to say of a log without an allocation."""
    told = f"{tool.named(options.log) if options.log else options.command[0]}: no allocation was found: is this a log of GODEBUG=allocfreetrace=1?"
    other = other_version(program)
    return f"{told} {other}" if other else told


def check_begun(recorder: Recorder) -> None:
    """Refuses a trace that did not begin."""
    asked, found = recorder.options.from_mark_end, recorder.log_mark_ends
    if recorder.early is not None and recorder.allocations:
        if found < asked:
            raise tool.Unusable(f"the log has {found} mark ends, so that no trace begins at mark end {asked}")
        raise tool.Unusable(f"mark end {asked} is the log's last, and nothing tells that it was swept whole: begin at an earlier one, or say --keep-last")


def write(recorder: Recorder, out: tool.Output, stacks: Optional[tool.Output]) -> None:
    """Writes both files, or nothing."""
    digest = hashlib.sha1()
    for piece in recorder.trace.pieces():
        digest.update(piece.encode())
        out.write(piece)
    if stacks:
        for line in stacks_header(recorder, digest.hexdigest()):
            stacks.write(line)
        for at in range(0, len(recorder.frames), PIECE):
            stacks.write("".join(recorder.frames[at : at + PIECE]))
        stacks.settle()
    out.settle()


def log_of(options: argparse.Namespace, interrupt: Interrupt) -> Any:
    if options.command:
        return Run(options.command, interrupt, None if options.output != "-" else sys.stderr)
    return Log(log_in(options.log), interrupt)


def pass_on(text: str) -> None:
    """A line of the program's own."""
    sys.stderr.write(text if text.endswith("\n") else text + "\n")


def main(words: List[str]) -> int:
    options = options_of(words)
    apart(options)
    program = program_of(options)
    interrupt = Interrupt()
    stacks_output: Any = tool.Output(options.stacks) if options.stacks else contextlib.nullcontext()
    with tool.Output(options.output) as out, stacks_output as stacks:
        log = log_of(options, interrupt)
        recorder = Recorder(options, program, lambda text: say(text))
        if log.is_run:
            recorder.foreign_seen = pass_on
        try:
            recorder.run(golog.events(told_pieces(log)))
        except BaseException:
            log.end(True)
            raise
        finally:
            if not log.is_run and options.log != "-":
                log.file.close()
        log.end(recorder.ended or recorder.other)
        if not recorder.allocations:
            raise tool.Unusable(no_allocation(options, program))
        check_begun(recorder)
        write(recorder, out, stacks)
    tell(recorder, log)
    return log.ended_status()


def command() -> None:
    tool.end("record", main, sys.argv[1:])
