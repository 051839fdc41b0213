"""Where a log comes from: a file, or a program that is run. And who may interrupt that."""

import os
import select
import signal
import subprocess
import sys
import time
from typing import Any, Iterator, List, Optional, TextIO

from goheap_tools import tool
from goheap_tools.formats import golog

# Lines of the log between two words on how far it is.
TOLD_EVERY = 1_000_000
# Seconds that a program has to end when it is asked to.
PATIENCE = 10
# Signals that the program takes itself.
HANDED = (signal.SIGHUP, signal.SIGQUIT, signal.SIGUSR1, signal.SIGUSR2)


class Interrupt:
    """Takes the first interrupt, or SIGTERM, as the log's end, so that the trace is whole. A second one ends the process."""

    def __init__(self) -> None:
        self.came: Optional[int] = None
        signal.signal(signal.SIGINT, self.take)
        signal.signal(signal.SIGTERM, self.take)

    def take(self, number: int, _: Any) -> None:
        self.came = number
        signal.signal(signal.SIGINT, tool.stop)
        signal.signal(signal.SIGTERM, tool.stop)


def ready(file: Any, seconds: float) -> bool:
    """Whether something can be read within so many seconds. A file that is none of the system's can always be read."""
    try:
        handle = file.fileno()
    except (OSError, AttributeError, ValueError):
        return True
    return bool(select.select([handle], [], [], seconds)[0])


class Log:
    """A log that is read from a file."""

    is_run = False

    def __init__(self, file: Any, interrupt: Interrupt) -> None:
        self.file, self.interrupt = file, interrupt

    def wait(self) -> bool:
        while not self.interrupt.came:
            if ready(self.file, 0.2):
                return True
        return False

    def end(self, early: bool) -> None:
        pass

    def ended_status(self) -> int:
        return 0


class Run:
    """A program that runs, and its log."""

    is_run = True

    def __init__(self, words: List[str], interrupt: Interrupt, out: Optional[TextIO]) -> None:
        self.interrupt = interrupt
        self.asked: Optional[float] = None  # when the program was asked to end
        self.stopped = False
        debug = ",".join(filter(None, [os.environ.get("GODEBUG"), "allocfreetrace=1"]))
        with tool.Named(words[0]):
            self.process = subprocess.Popen(words, stderr=subprocess.PIPE, stdout=out, env={**os.environ, "GODEBUG": debug})
        self.file = self.process.stderr
        for number in HANDED:
            signal.signal(number, self.hand_on)

    def hand_on(self, number: int, _: object) -> None:
        """What is for the program reaches it. Those that ask it to end are `Interrupt`'s."""
        if self.process.poll() is None:
            self.process.send_signal(number)

    def wait(self) -> bool:
        """The program's children may hold its log open, so its end is the log's."""
        while True:
            if self.interrupt.came:
                self.urge()
            if ready(self.file, 0.2):
                return True
            if self.process.poll() is not None:
                return False

    def urge(self) -> None:
        """Asks the program to end, which a terminal's interrupt has done already, and in the end makes it."""
        now = time.monotonic()
        if self.asked is None:
            self.asked = now
            if self.interrupt.came != signal.SIGINT:
                self.process.terminate()
        elif now > self.asked + PATIENCE:
            self.process.kill()

    def end(self, early: bool) -> None:
        """Waits for the program's end; where the trace ended early, ends it, since Go programs run on when nobody reads what they write."""
        if early and self.process.poll() is None:
            self.stopped = True
            self.asked = time.monotonic()
            self.process.terminate()
        while self.process.poll() is None:
            if self.interrupt.came or self.stopped:
                self.urge()
            if self.file.closed or not ready(self.file, 0.05) or not os.read(self.file.fileno(), golog.PIECE):
                time.sleep(0.01)
        self.file.close()

    def status(self) -> str:
        status = self.process.returncode
        return f"signal {-status}" if status < 0 else f"status {status}"

    def ended_status(self) -> int:
        """The program's own status, 128 and the signal where one ended it; 0 where it was ended here, since the trace was full."""
        status = self.process.returncode
        return 0 if self.stopped else 128 - status if status < 0 else status


def told_pieces(log: Log) -> Iterator[str]:
    """The log's text, as it comes. Where standard error is a terminal it tells there how far it is, but not while a program runs."""
    shown = sys.stderr is not None and sys.stderr.isatty() and not log.is_run
    lines = before = 0
    for piece in golog.pieces_of(log.file, log.wait):
        yield piece
        lines += piece.count("\n") if shown else 0
        if lines // TOLD_EVERY > before:
            before = lines // TOLD_EVERY
            print(f"\r{lines:,} lines of the log", end="", file=sys.stderr, flush=True)
    if shown:
        print("\r\033[K", end="", file=sys.stderr)
