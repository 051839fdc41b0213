"""Runs a program, hands on the signals that come for it, and answers with its status."""

import os
import signal
import subprocess
from typing import Callable, Dict, Iterable, Optional, Sequence

from goheap_tools import tool

# What asks a program to do something. A terminal's stop and what belongs to the system stay with whom they reach.
HANDED = frozenset((signal.SIGHUP, signal.SIGINT, signal.SIGQUIT, signal.SIGUSR1, signal.SIGUSR2, signal.SIGALRM, signal.SIGTERM))
# Seconds between two looks at how far the program is.
TICK = 0.25


def status_of(code: int) -> int:
    """A program's status as a shell tells it: 128 and the signal that ended it."""
    return 128 - code if code < 0 else code


def told_status(status: int) -> str:
    """How the program ended, in words."""
    if status > 128 and status - 128 in signal.valid_signals():
        return f"signal {signal.Signals(status - 128).name} (status {status})"
    return f"status {status}"


class Running:
    """A program that runs. Signals for this process wait until `wait` takes them, from before the program begins on, so that none is lost
    between them."""

    def __init__(self, words: Sequence[str], environment: Dict[str, str]):
        self.mask = signal.pthread_sigmask(signal.SIG_BLOCK, HANDED | {signal.SIGCHLD})
        try:
            with tool.Named(words[0]):
                self.process = subprocess.Popen(words, env=environment, preexec_fn=self.restore)
        except BaseException:
            self.restore()
            raise

    def restore(self) -> None:
        signal.pthread_sigmask(signal.SIG_SETMASK, self.mask)

    def wait(self, tick: Optional[Callable[[], None]] = None, others: Callable[[], Iterable[int]] = tuple) -> int:
        """Waits for the program's end, and answers its status. `others` are the processes that signals are for in its place, where there are
        any; `tick` is called every quarter of a second."""
        try:
            while self.process.poll() is None:
                came = signal.sigtimedwait(HANDED | {signal.SIGCHLD}, TICK)
                # What a terminal sends reaches each process of its foreground group, the program too.
                if came and came.si_signo in HANDED and came.si_code <= 0:
                    self.hand_on(came.si_signo, list(others()))
                if tick:
                    tick()
        finally:
            while signal.sigtimedwait(HANDED, 0):
                pass  # it came for a program that had ended
            self.restore()
        return status_of(self.process.returncode)

    def hand_on(self, number: int, others: Iterable[int]) -> None:
        for process in others or [self.process.pid]:
            try:
                os.kill(process, number)
            except ProcessLookupError:
                pass
