"""What the tools have in common: how they open texts, how they write files whole or not at all, and how they end where something is wrong."""

import argparse
import contextlib
import os
import signal
import stat
import sys
import tempfile
import time
from typing import Any, Callable, IO, List, NoReturn, Optional

from goheap_tools import progress


class Unusable(Exception):
    """What was given cannot be used; the text says why."""


class Stopped(BaseException):
    """A signal asks the tool to end."""

    def __init__(self, number: int) -> None:
        super().__init__(number)
        self.number = number


def whole(text: str) -> int:
    """The number that decimal digits spell; ValueError where they are none."""
    if not (text.isascii() and text.isdigit()):
        raise ValueError(text)
    return int(text)


def number(least: int, most: int) -> Callable[[str], int]:
    """An argument's type: a number in decimal digits, from `least` to `most`."""

    def read(text):
        try:
            value = whole(text)
        except ValueError:
            value = -1
        if not least <= value <= most:
            raise argparse.ArgumentTypeError(f"{text!r} is no number from {least} to {most}")
        return value

    return read


def stream(standard: Any, name: str, errors: str = "surrogateescape") -> Any:
    """Standard input or output, as UTF-8. Other bytes pass through as they are."""
    if standard is None:
        raise Unusable(f"{name} is closed")
    standard.reconfigure(encoding="utf-8", errors=errors)
    return standard


def reading(path: str) -> Any:
    """The text in the file; - is standard input."""
    return stream(sys.stdin, "standard input") if path == "-" else open(path, encoding="utf-8", errors="surrogateescape")


def named(path: str) -> str:
    """A file's name, as it is told."""
    return "standard input" if path == "-" else path


# What goheap's texts begin with, by which a tool knows one that was given in the place of another.
KINDS = (("goheap ", "a trace"), ("o 0 ", "a report"), ("# goheap stacks ", "a stacks file"), ("tracealloc(", "a log"), ("heap profile: ", "a heap profile"))


def kind_of(line: str) -> Optional[str]:
    """What a text is that begins with this line, or nothing."""
    return next((kind for front, kind in KINDS if line.startswith(front)), None)


# How a text is made of another that was given in its place.
MAKING = {("a report", "a trace"): " (goheap run --each < trace > report)", ("a report", "a log"): " (record makes a trace of it)"}

# The first lines of the traces that are read here, by version.
FIRST_LINES = {"goheap 1": 1, "goheap 2": 2, "goheap 3": 3, "goheap 4": 4}


def no_trace(name: str) -> Unusable:
    """Why a text is no trace whose first line is none of these."""
    *some, last = (f"`{line}`" for line in FIRST_LINES)
    return Unusable(f"{name}: no trace: its first line is none of {', '.join(some)} and {last}")


def size_text(size: float) -> str:
    """So many bytes, as `go tool pprof` writes them."""
    for unit, name in ((1 << 30, "GB"), (1 << 20, "MB"), (1 << 10, "kB")):
        if abs(size) >= unit:
            return f"{size / unit:.2f}{name}"
    return f"{size:.0f}B"


def day_text(seconds: float) -> Optional[str]:
    """The day of a time of the wall's clock, in this place's zone; nothing of a time that there is not."""
    try:
        return time.strftime("%Y-%m-%d", time.localtime(seconds))
    except (OverflowError, ValueError, OSError):
        return None


def plain(value: float) -> float:
    """The number as JSON has it: a whole one without a point."""
    return int(value) if float(value).is_integer() else value


class Output:
    """A file that is written whole or not at all: what is written goes to a temporary file beside it, which takes its name at the end of
    the `with` where nothing was raised, and goes away else. `-` is standard output, and what is no regular file (a terminal, a pipe) is
    written at the end alone. A fault names the file."""

    def __init__(self, path: str, binary: bool = False, errors: str = "surrogateescape") -> None:
        self.path, self.binary, self.errors = path, binary, errors
        self.name = "standard output" if path == "-" else path
        self.temporary: Any = None
        self.file: Any = None
        self.settled = False

    def __enter__(self) -> "Output":
        try:
            self.open()
        except BaseException:
            self.drop()
            raise
        return self

    def open(self) -> None:
        form: Any = {} if self.binary else {"encoding": "utf-8", "errors": self.errors}
        mode = "w+b" if self.binary else "w+"
        if self.path == "-" and sys.stdout is None:
            raise Unusable("standard output is closed")
        if self.path != "-" and not self.is_special():
            self.target = os.path.realpath(self.path)
            self.temporary = f"{self.target}.{os.getpid()}.part"
            with self.faults():
                handle = os.open(self.temporary, os.O_RDWR | os.O_CREAT | os.O_TRUNC, 0o666)
                if os.path.exists(self.target):
                    os.fchmod(handle, stat.S_IMODE(os.stat(self.target).st_mode))
            self.file = open(handle, mode, **form)
        else:
            self.file = tempfile.TemporaryFile(mode, **form)

    def is_special(self) -> bool:
        """Whether the path is there, and no regular file. Refuses what could not be written over."""
        if not os.path.exists(self.path):
            return False
        if os.path.isdir(self.path):
            raise IsADirectoryError(21, "Is a directory", self.path)
        if not os.access(self.path, os.W_OK):
            raise PermissionError(13, "Permission denied", self.path)
        return not os.path.isfile(self.path)

    def faults(self) -> "Named":
        return Named(self.name)

    def write(self, text: Any) -> None:
        with self.faults():
            self.file.write(text)

    def settle(self) -> None:
        """All that was written is in the file, or in the temporary one beside it; a fault comes now."""
        if self.settled:
            return
        self.settled = True
        with self.faults():
            self.file.flush()
            if self.temporary:
                self.file.close()
            else:
                self.pour()

    def pour(self) -> None:
        """What was written goes to where it belongs."""
        form: Any = {} if self.binary else {"encoding": "utf-8", "errors": self.errors}
        progress.end()
        self.file.seek(0)
        if self.path != "-":
            with open(self.path, "wb" if self.binary else "w", **form) as out:
                self.copy(out)
        else:
            self.copy(sys.stdout.buffer if self.binary else stream(sys.stdout, "standard output", self.errors))

    def copy(self, out: IO) -> None:
        while piece := self.file.read(1 << 20):
            out.write(piece)
        out.flush()

    def __exit__(self, kind: Any, fault: Any, _: Any) -> None:
        try:
            if kind is None:
                self.settle()
                if self.temporary:
                    with self.faults():
                        os.replace(self.temporary, self.target)
                    self.temporary = None
        finally:
            self.drop()

    def drop(self) -> None:
        """Nothing of what was not put in its place is left."""
        with contextlib.suppress(OSError, AttributeError):
            self.file.close()
        if self.temporary:
            with contextlib.suppress(FileNotFoundError):
                os.unlink(self.temporary)
            self.temporary = None


class Named:
    """Gives a fault of the system the name of the file that it is of."""

    def __init__(self, name: str) -> None:
        self.name = name

    def __enter__(self) -> "Named":
        return self

    def __exit__(self, kind: Any, fault: Any, _: Any) -> None:
        if isinstance(fault, OSError) and fault.errno:
            raise OSError(fault.errno, os.strerror(fault.errno), self.name) from None


def told(error: BaseException) -> str:
    if isinstance(error, MemoryError):
        return "memory ran out"
    if isinstance(error, OSError) and error.strerror:
        return error.strerror if error.filename is None else f"{error.filename}: {error.strerror}"
    return str(error)


def drop_output() -> None:
    """Standard output goes nowhere from here on: what is still to be written would fail again."""
    if sys.stdout is not None and not sys.stdout.closed:
        os.dup2(os.open(os.devnull, os.O_WRONLY), sys.stdout.fileno())


def stop(number: int, _: Any) -> NoReturn:
    raise Stopped(number)


def end_by(number: int) -> int:
    """Ends the process as the signal does."""
    progress.end()
    drop_output()
    signal.signal(number, signal.SIG_DFL)
    os.kill(os.getpid(), number)
    return 2


def end(name: str, main: Callable[[List[str]], int], words: List[str], tells: bool = False) -> NoReturn:
    """Ends the process with the status that `main` answers, or with 2 and a line that says why there is none. A reader that closes its
    pipe, as `head` does, ends the tool without a word; so does an interrupt or SIGTERM, behind which no temporary file is left. Where it
    `tells`, a terminal is told how far it is."""
    signal.signal(signal.SIGPIPE, signal.SIG_IGN)
    signal.signal(signal.SIGINT, stop)
    signal.signal(signal.SIGTERM, stop)
    if tells:
        progress.begin(name)
    try:
        status = main(words)
        progress.end()
        if sys.stdout is not None and not sys.stdout.closed:
            with Named("standard output"):
                sys.stdout.flush()
    except Stopped as stopped:
        status = end_by(stopped.number)
    except BrokenPipeError:
        status = end_by(signal.SIGPIPE)
    except (Unusable, OSError, MemoryError) as error:
        progress.end()
        print(f"{name}: {told(error)}", file=sys.stderr)
        drop_output()
        status = 2
    sys.exit(status)
