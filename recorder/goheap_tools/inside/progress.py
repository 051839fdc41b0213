"""One line on how far a recording is, while the program runs."""

import os
import sys
import time
from typing import Callable, Dict, Optional, Sequence

from goheap_tools import tool
from goheap_tools.inside.recording import CHUNK_BYTES, COUNTS, EMPTY, LARGE, MARK_END, Counts
from goheap_tools.inside.scan import ROW, Chunk
from goheap_tools.inside.session import MAGIC

NEXT_CHUNK = 32  # byte of the header with the next free chunk
TERMINAL = 0.5  # seconds between two lines
VERBOSE = 10
# Chunks that are looked at for one line. Of the others' objects the number is estimated by these.
MOST_CHUNKS = 256


class Counted:
    """What is known of a recording that is being written. Each chunk is looked at once, when another one was begun behind it."""

    def __init__(self, path: str):
        self.path = path
        self.chunk = 1  # the next one to look at
        self.objects = 0.0
        self.looked_at = 0  # chunks
        self.counted = 0  # objects in them
        self.mark_ends = 0
        self.live: Optional[int] = None
        self.ticket = 0

    def look(self) -> int:
        """Takes in what was written since. Answers the bytes of the file that are used; 0 where it was not begun."""
        try:
            with open(self.path, "rb", buffering=0) as file:
                return self.look_at(file.fileno(), os.fstat(file.fileno()).st_size // CHUNK_BYTES)
        except FileNotFoundError:
            return 0

    def look_at(self, file: int, chunks: int) -> int:
        head = os.pread(file, NEXT_CHUNK + 8, 0)
        if head[:8] != MAGIC:
            return 0
        used = min(int.from_bytes(head[NEXT_CHUNK:], "little"), chunks)
        first = max(self.chunk, used - MOST_CHUNKS)
        passed = first - self.chunk
        for number in range(first, used):
            self.take(number, os.pread(file, CHUNK_BYTES, number * CHUNK_BYTES).ljust(CHUNK_BYTES, b"\0"))
        self.chunk = max(self.chunk, used)
        self.objects += passed * self.counted / (self.looked_at or 1)
        return used * CHUNK_BYTES

    def take(self, number: int, data: bytes) -> None:
        chunk = Chunk(self.path, number, data)
        objects = 0
        try:
            for piece in chunk.pieces():
                if piece.kind == ROW:
                    kinds = data[piece.at : piece.end : 16]
                    objects += len(kinds) - kinds.count(EMPTY)
                elif piece.kind == LARGE:
                    objects += 1
                elif piece.kind in (MARK_END, COUNTS):
                    self.take_counts(chunk.event(piece))
        except tool.Unusable:
            pass  # it is being written
        self.looked_at += 1
        self.counted += objects
        self.objects += objects

    def take_counts(self, event: Counts) -> None:
        if event.ticket > self.ticket:
            self.ticket, self.mark_ends, self.live = event.ticket, event.collections, event.allocated - event.freed


class Progress:
    """Tells of the recordings that are being written: on a terminal in one line, elsewhere, where asked for, in a line each ten seconds."""

    def __init__(self, outputs: Callable[[], Sequence[str]], verbose: bool):
        self.outputs = outputs
        self.known: Dict[str, Counted] = {}
        self.is_terminal = sys.stderr is not None and sys.stderr.isatty()
        self.every = TERMINAL if self.is_terminal else VERBOSE if verbose else None
        self.next = time.monotonic() + (self.every or 0)
        self.is_shown = False

    def tick(self) -> None:
        now = time.monotonic()
        if self.every is None or now < self.next:
            return
        self.next = now + self.every
        for path in self.outputs():
            counted = self.known.setdefault(path, Counted(path))
            size = counted.look()
            if size:
                self.show(counted, size)

    def show(self, counted: Counted, size: int) -> None:
        live = "" if counted.live is None else f", {tool.size_text(counted.live)} in use"
        text = f"record: {os.path.basename(counted.path)}: {counted.objects:,.0f} objects, {counted.mark_ends} mark ends, {tool.size_text(size)}{live}"
        if self.is_terminal:
            print(f"\r{text[: columns() - 1]}\033[K", end="", file=sys.stderr, flush=True)
            self.is_shown = True
        else:
            print(text, file=sys.stderr, flush=True)

    def clear(self) -> None:
        """The line goes, for what is said at the end."""
        if self.is_shown:
            print("\r\033[K", end="", file=sys.stderr, flush=True)


def columns() -> int:
    try:
        return os.get_terminal_size(sys.stderr.fileno()).columns or 80
    except (OSError, ValueError):
        return 80
