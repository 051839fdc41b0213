"""Says what a tool is at: on a terminal in one line that is written over again and again, and erased at the end.

A tool of one go says it where it takes longer than two seconds (`begin`, `stage`, `end`). One of several steps says it at once, with how far
the step is by the time that it should take, and where there is no terminal a line for each step that is done (`Steps`).
"""

import sys
import threading
import time
from typing import Any, Callable, Optional

FIRST, EVERY = 2.0, 0.5  # seconds until a tool of one go says something, and between two times that it does
STEP_EVERY = 0.2  # the same of a step
ERASE = "\r\033[K"


class Line(threading.Thread):
    """The line on the terminal. `text_at` says what stands in it after so many seconds."""

    def __init__(self, file: Any, text_at: Callable[[float], str], first: float, every: float) -> None:
        super().__init__(daemon=True)
        self.file, self.text_at, self.first, self.every = file, text_at, first, every
        self.done, self.lock, self.is_shown = threading.Event(), threading.Lock(), False

    def run(self) -> None:
        began, pause = time.monotonic(), self.first
        while not self.done.wait(pause):
            pause = self.every
            with self.lock:
                if not self.done.is_set():
                    self.file.write(ERASE + self.text_at(time.monotonic() - began))
                    self.file.flush()
                    self.is_shown = True

    def erase(self) -> None:
        """What is shown goes away, so that something else can be written."""
        with self.lock:
            if self.is_shown:
                self.file.write(ERASE)
                self.file.flush()
                self.is_shown = False

    def end(self) -> None:
        """Nothing is shown from here on."""
        self.done.set()
        self.erase()


# A tool of one go.


class Stage:
    """What the tool is at."""

    def __init__(self, name: str) -> None:
        self.name, self.text = name, "working"

    def text_at(self, seconds: float) -> str:
        return f"{self.name}: {self.text}, {seconds:.0f} s"


now: Optional[Stage] = None
shown: Optional[Line] = None


def begin(name: str) -> None:
    """Says how far this tool is, where standard error is a terminal."""
    global now, shown
    if sys.stderr is not None and sys.stderr.isatty():
        now = Stage(name)
        shown = Line(sys.stderr, now.text_at, FIRST, EVERY)
        shown.start()


def stage(text: str) -> None:
    """The tool is at this now."""
    if now:
        now.text = text


def erase() -> None:
    """What is shown goes away for a moment."""
    if shown:
        shown.erase()


def end() -> None:
    """Nothing is shown any more."""
    global now, shown
    if shown:
        shown.end()
        now = shown = None


# A tool of several steps.


class Steps:
    """The steps of some work. `with steps.step("reads the trace", 2.0)` is a step that takes some two seconds; what is told of steps is how
    far they are by that, since none tells it of itself."""

    def __init__(self, name: str, count: int, out: Any = None) -> None:
        self.name, self.count, self.number = name, count, 0
        self.out = out if out is not None else sys.stderr
        self.is_terminal = self.out is not None and self.out.isatty()

    def step(self, what: str, seconds: Optional[float] = None) -> "Step":
        """The next step. Without `seconds` nobody knows how long it takes."""
        self.number += 1
        return Step(self, what, seconds)

    def say(self, text: str) -> None:
        if self.out is not None:
            print(text, file=self.out, flush=True)

    def done(self, text: str) -> None:
        """Says what came of it all."""
        self.say((ERASE if self.is_terminal else "") + text)


class Step:
    """A step that is being done."""

    def __init__(self, steps: Steps, what: str, seconds: Optional[float]) -> None:
        self.steps, self.what, self.seconds = steps, what, seconds
        self.line: Optional[Line] = None

    def __enter__(self) -> "Step":
        self.began = time.monotonic()
        if self.steps.is_terminal:
            self.line = Line(self.steps.out, self.text_at, 0, STEP_EVERY)
            self.line.start()
        return self

    def front(self) -> str:
        return f"{self.steps.name}: {self.steps.number} of {self.steps.count}, {self.what}"

    def text_at(self, past: float) -> str:
        return f"{self.front()}: {self.far(past)}"

    def far(self, past: float) -> str:
        """How far the step is after so many seconds."""
        if not self.seconds:
            return f"{past:.0f} s so far"
        part = min(past / self.seconds, 0.99)
        left = max(self.seconds - past, 0)
        return f"{100 * part:.0f} %, {'some seconds more than expected' if past > 1.5 * self.seconds + 2 else f'about {left:.0f} s left'}"

    def __exit__(self, kind: Any, fault: Any, _: Any) -> None:
        if self.line:
            self.line.end()
            self.line.join()
        elif kind is None:
            self.steps.say(f"{self.front()}: {time.monotonic() - self.began:.1f} s")
