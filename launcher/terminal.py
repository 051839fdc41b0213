"""What the launcher's scripts show while they are at work: a line of a terminal that is written over, and how they end at a signal."""
import contextlib
import os
import signal
import subprocess
import sys

SIGNALS = (signal.SIGHUP, signal.SIGINT, signal.SIGTERM)


class Line:
    """A line on standard error that is written over and goes away at the end. Where that is no terminal there is none."""

    def __init__(self):
        self.is_shown = sys.stderr.isatty()

    def __enter__(self):
        return self

    def show(self, text: str) -> None:
        if self.is_shown:
            print(f"\r{text}\033[K", end="", file=sys.stderr, flush=True)

    def __exit__(self, *_):
        self.show("")


def end_at_signals() -> None:
    """Has a signal that asks for the end raise SystemExit with 128 and its number, so that what was begun is ended in order."""
    for number in SIGNALS:
        signal.signal(number, lambda it, _: sys.exit(128 + it))


def end_group(run: subprocess.Popen) -> None:
    """Ends a command that was started in a session of its own, with all that it started."""
    for number in (signal.SIGTERM, signal.SIGKILL):
        try:
            os.killpg(run.pid, number)
            run.wait(timeout=5)
        except ProcessLookupError:
            return
        except subprocess.TimeoutExpired:
            continue


@contextlib.contextmanager
def started(words: list[str], **how):
    """A command in a session of its own. Where what is done with it is broken off, it ends with all that it started."""
    with subprocess.Popen(words, start_new_session=True, **how) as run:
        try:
            yield run
        except BaseException:
            end_group(run)
            raise
