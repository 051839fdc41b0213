"""Records what a Go program does with its memory.

    recorder/record -- go build ./cmd/server     makes a program that can record itself; so do `go install`, `go run` and `go test`
    recorder/record -- ./server ARGUMENTS        runs it, and writes server.heap; `go run` and `go test` do both in one
    recorder/record log --program ./program --stacks stacks -o trace     reads the log of a program that others built

A program that was not built so is run with Go's log in place of a recording (`record --log --help`). The status is the program's own.
"""

import argparse
import errno
import os
import re
import shutil
import sys
from typing import List, NamedTuple, Sequence, Set, Union

from goheap_tools import tool
from goheap_tools.formats.program import READ_VERSIONS, Program
from goheap_tools.inside import overlay, runner, under_go
from goheap_tools.inside.gocommand import GoCommand, is_go
from goheap_tools.inside.kinds import Kind, kind_of, refusal
from goheap_tools.inside.process import Running, told_status
from goheap_tools.inside.progress import Progress
from goheap_tools.inside.session import DEFAULT_SIZE, LEAST_SIZE, MOST_EVERY, MOST_SIZE, Asked, environment, make_way, output_for
from goheap_tools.inside.summary import Found, finish, tell

UNITS = {"": 1, "K": 1 << 10, "M": 1 << 20, "G": 1 << 30, "T": 1 << 40}
# Options of a run that records itself, and those of the log, by whether a value follows.
OWN = {"--size": True, "--from": True, "--every": True, "--keep-children": False}
SHARED = {"-o": True, "--output": True, "--verbose": False, "--help": False, "-h": False, "--log": False, "--show": False, "--overlay": False}
OF_LOG = {"--program": True, "--stacks": True, "--trim": True, "--keep-last": False, "--from-mark-end": True, "--version": True, "--chunks": True, "--procs": True,
          "--rate": True, "--seed": True, "--goal": True, "--distance": True, "--tiny-blocks": False, "--no-tiny-blocks": False}  # fmt: skip
VALUED = {name: valued for options in (OWN, SHARED, OF_LOG) for name, valued in options.items()}


class Words(NamedTuple):
    """The words of a call, taken apart."""

    options: List[str]
    names: List[str]  # of the options that are among them
    command: List[str]  # the words behind --, or from the first on that is no option
    is_told: bool  # whether a -- stands before them


def full_name(name: str) -> str:
    """The option that this may be the beginning of."""
    known = [one for one in VALUED if one.startswith(name)] if name.startswith("--") else []
    return name if name in VALUED or len(known) != 1 else known[0]


def taken_apart(words: Sequence[str]) -> Words:
    names, at = [], 0
    while at < len(words):
        word = words[at]
        if word == "--":
            return Words(list(words[:at]), names, list(words[at + 1 :]), True)
        if not word.startswith("-") or word == "-":
            break
        name, equals, _ = word.partition("=")
        if word.startswith("-o") and len(word) > 2 and not word.startswith("--"):
            name, equals = "-o", "="
        name = full_name(name)
        names.append(name)
        at += 2 if VALUED.get(name) and not equals else 1
    return Words(list(words[:at]), names, list(words[at:]), False)


def size_of(text: str) -> int:
    """A number of bytes, with K, M, G or T behind it."""
    found = re.fullmatch(r"(\d+)([KMGT]?)(i?B)?", text, re.I)
    value = int(found.group(1)) * UNITS[found.group(2).upper()] if found else -1
    if not LEAST_SIZE <= value <= MOST_SIZE:
        raise argparse.ArgumentTypeError(f"{text!r} is no size from {LEAST_SIZE >> 10}K to {MOST_SIZE >> 40}T, such as 500M or 8G")
    return value


def begin_of(text: str) -> Union[int, str]:
    """A mark end, or the word for a signal."""
    if text == "signal":
        return text
    try:
        return tool.number(1, (1 << 31) - 1)(text)
    except argparse.ArgumentTypeError:
        raise argparse.ArgumentTypeError(f"{text!r} is neither a mark end, from 1 on, nor the word signal") from None


def options_of(words: Sequence[str]) -> argparse.Namespace:
    parser = argparse.ArgumentParser(prog="record", usage="%(prog)s [options] [--] (go build .. | ./program arguments | log)", description=__doc__,
                                     formatter_class=argparse.RawDescriptionHelpFormatter)  # fmt: skip
    parser.add_argument("--output", "-o", metavar="FILE", help="the recording (default: the program's name with .heap, in this folder)")
    parser.add_argument("--size", type=size_of, metavar="BYTES", help="that the recording may have, such as 500M or 8G; the file is sparse, and when it is full the program runs on (default 8G)")
    parser.add_argument("--from", dest="begin", type=begin_of, metavar="N", help="begin at the program's mark end N; or `signal`: SIGUSR1 begins and ends the recording")
    parser.add_argument("--every", type=tool.number(1, MOST_EVERY), metavar="N", help="write the stack of each Nth object alone; all objects are in the recording (default 1)")
    parser.add_argument("--keep-children", action="store_true", help="record what the program starts as well, each process in a file of its own; else the first process alone")
    parser.add_argument("--verbose", action="store_true", help="where no terminal shows how far it is, say so in a line each ten seconds")
    parser.add_argument("--show", action="store_true", help="print the difference that the overlay makes to Go's runtime; behind -- may stand a go command")
    parser.add_argument("--overlay", action="store_true", help="print the overlay's file, for `go build -overlay=FILE` in a build of your own")
    parser.add_argument("--log", action="store_true", help="read the log of GODEBUG=allocfreetrace=1 though the program could record itself; --log --help tells its options")
    return parser.parse_args(words)


def say(text: str) -> None:
    print(f"record: {text}", file=sys.stderr, flush=True)


# Runs.


def asked_of(options: argparse.Namespace) -> Asked:
    return Asked(options.size or DEFAULT_SIZE, options.begin if options.begin and options.begin != "signal" else 0, options.begin == "signal", options.every or 1,
                 options.keep_children)  # fmt: skip


def record_program(path: str, words: Sequence[str], options: argparse.Namespace, own: bool = True) -> int:
    """Runs the program, which records itself. What is not `own` starts a program that does, such as a script."""
    asked = asked_of(options)
    output = output_for(path, os.getcwd(), asked, options.output)
    make_way(output)
    running = Running([path, *words[1:]], environment(asked, output))
    progress = Progress(lambda: [output], options.verbose)
    status = running.wait(progress.tick)
    progress.clear()
    if status:
        say(f"the program ended with {told_status(status)}")
    found = finish(output, running.process.pid if own else None)
    tell(found, say)
    return status


def record_go(words: Sequence[str], options: argparse.Namespace) -> int:
    """Runs a go command with the overlay, and records what it runs."""
    command = GoCommand(words)
    asked = asked_of(options)
    given = [name for name in (*OWN, "--output") if getattr(options, {"--from": "begin"}.get(name, name[2:].replace("-", "_")))]
    if given and not command.runs:
        raise tool.Unusable(f"{given[0]} is of a run, and `go {command.kind}` runs nothing here: say it where the program is run")
    prepared = overlay.prepare(command.go)
    if not command.runs:
        status = Running(command.changed(prepared, None), dict(os.environ)).wait()
        if not status:
            say(f"built with the overlay of {command.about['GOVERSION']}; next: record -- ./program")
        return status
    return run_go(command, prepared, asked, options)


def run_go(command: GoCommand, prepared: str, asked: Asked, options: argparse.Namespace) -> int:
    folder = os.getcwd()
    taken: Set[str] = set()
    found: List[Found] = []

    def choose(program: str) -> str:
        """Each program of this go command has a file of its own."""
        output = output_for(program, folder, asked, options.output)
        front, end = os.path.splitext(output)
        number = 1
        while output in taken:
            number += 1
            output = f"{front}.{number}{end}"
        make_way(output)
        taken.add(output)
        return output

    host = runner.Host(choose, lambda output, process: found.extend(finish(output, process)))
    begin = [sys.executable, os.path.abspath(under_go.__file__), runner.WORD, host.name, *told_options(asked), "--"]
    running = Running(command.changed(prepared, begin), dict(os.environ))
    host.begin()
    progress = Progress(host.outputs, options.verbose)
    status = running.wait(progress.tick, host.running)
    progress.clear()
    host.close()
    if host.faults:
        say(host.faults[0])
    tell(found, say)
    # `go run` says of each failure 1; the program's own status is what was asked for.
    return host.ended[-1].status if command.kind == "run" and host.ended else status


def told_options(asked: Asked) -> List[str]:
    """These options again, for the runner."""
    begin = "signal" if asked.signal else str(asked.begin) if asked.begin else None
    return [f"--size={asked.size}", f"--every={asked.every}", *([f"--from={begin}"] if begin else []), *(["--keep-children"] if asked.children else [])]


# The log.


def by_log(words: Sequence[str]) -> int:
    from goheap_tools.cli import record_log

    return record_log.main(list(words))


def program_by_log(path: str, call: Words) -> int:
    """Records by its log a program that was not built to record itself, and says what that is like."""
    for name in call.names:
        if name in OWN:
            raise tool.Unusable(f"{name} is for programs that record themselves, and {call.command[0]} was not built so: see `record -- go build`")
    try:
        version = Program(path).go_version
    except tool.Unusable:
        version = None
    if version and not re.match(r"go1\.(19|20|21)(\D|$)", version):
        raise tool.Unusable(f"{call.command[0]} was built with {version}, which writes no such log ({READ_VERSIONS} do): build it with one of these, by `record -- go build`")
    say(f"{call.command[0]} was not built to record itself, so its log is read ({version or 'Go of an unknown version'}): it takes 15 to 116 times the processor time, and ends at"
        " a million objects. `record -- go build ..` builds one that records itself")  # fmt: skip
    return by_log([*(word for word in call.options if word != "--log"), "--", *call.command])


# What was asked for.


def wants_log(call: Words) -> bool:
    """Whether the words are of the way of the log alone."""
    if call.is_told:
        return False
    if not call.command:
        return "--log" in call.names or not ({"--show", "--overlay", "--help", "-h"} & set(call.names)) and not (sys.stdin and sys.stdin.isatty())
    name = call.command[0]
    return name == "-" or os.path.isfile(name) and not os.access(name, os.X_OK) and kind_of(name) in (Kind.OTHER, Kind.LOG) and refusal(name, kind_of(name)) is None


def overlay_words(call: Words, options: argparse.Namespace) -> int:
    """What the overlay is, or where."""
    go = call.command[0] if call.command else "go"
    print(overlay.difference(go), end="") if options.show else print(overlay.prepare(go))
    return 0


def record_command(call: Words, options: argparse.Namespace) -> int:
    """Records what stands behind the options."""
    name = call.command[0]
    path = name if os.path.isfile(name) and "/" in name else shutil.which(name) or (name if os.path.isfile(name) else None)
    kind = kind_of(path) if path else None
    of_log = next((one for one in call.names if one in OF_LOG), None)
    if is_go(call.command) and kind is not Kind.ITSELF:
        if of_log or "--log" in call.names:
            raise tool.Unusable(f"{of_log or '--log'} is for logs, and what a go command makes here records itself")
        return record_go(call.command, options)
    if path is None or kind is None:
        raise FileNotFoundError(errno.ENOENT, os.strerror(errno.ENOENT), name)
    if (why := refusal(path, kind)) and not (kind is Kind.ELF and options.keep_children):
        raise tool.Unusable(why)
    if not os.access(path, os.X_OK):
        raise tool.Unusable(f"{name} is there, and may not be run: for a log leave the -- out")
    if kind is Kind.ITSELF and "--log" not in call.names:
        if of_log:
            raise tool.Unusable(f"{of_log} is for logs, and {name} records itself: leave it out, or say --log")
        return record_program(path, call.command, options)
    if options.keep_children and "--log" not in call.names:
        return record_program(path, call.command, options, own=False)  # what it starts may record itself
    return program_by_log(path, call)


def main(words: Sequence[str]) -> int:
    if words[:1] == [runner.WORD] and len(words) > 2:
        call = taken_apart(words[2:])
        return runner.run_for_go(words[1], asked_of(options_of(call.options)), call.command)
    call = taken_apart(words)
    if wants_log(call):
        return by_log([word for word in words if word != "--log"])
    if {"--help", "-h"} & set(call.names):
        options_of(["--help"])
    options = options_of([] if any(name in OF_LOG for name in call.names) else call.options)
    if options.show or options.overlay:
        return overlay_words(call, options)
    if not call.command:
        raise tool.Unusable("no program stands behind --" if call.is_told else "name a go command, a program or a log (record --help)")
    return record_command(call, options)


def command() -> None:
    tool.end("record", main, sys.argv[1:])
