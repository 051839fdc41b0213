"""What becomes of a recording's file when the program has ended, and what is said of it."""

import glob
import os
import shlex
import struct
from typing import Callable, Counter, Iterable, List, NamedTuple, Optional, Tuple

from goheap_tools import tool
from goheap_tools.inside import names
from goheap_tools.inside.recording import CHUNK_BYTES, EMPTY, LARGE, MARK_END, RIDER, STACK, Recording, Stack
from goheap_tools.inside.scan import ROW, Chunks
from goheap_tools.inside.session import PROCESS, writer_of

STATES = {1: "the recording reached its size, and is whole up to there (see --size)", 2: "the file system had no room left, and the recording is whole up to there"}


class Found(NamedTuple):
    """What was recorded of one process, or what went wrong."""

    path: str
    fault: Optional[str] = None
    objects: int = 0
    riders: int = 0  # of tiny blocks
    empty: int = 0  # objects of size 0
    mark_ends: int = 0
    stacks: int = 0
    size: int = 0  # bytes of the recording, without its names
    live: Optional[int] = None  # bytes in use at the last mark end, as the runtime counted them
    state: int = 0
    unnamed: Optional[str] = None


def paths_of(output: str) -> List[str]:
    """The files that were written: one, or one for each process."""
    if PROCESS not in os.path.basename(output):
        return [output]
    front, _, end = output.rpartition(PROCESS)
    found = [path for path in glob.glob(f"{glob.escape(front)}*{glob.escape(end)}") if path[len(front) : len(path) - len(end)].isdigit()]
    return sorted(found, key=lambda path: int(path[len(front) : len(path) - len(end)]))


def finish(output: str, process: Optional[int]) -> List[Found]:
    """Closes the files of a run: what was never used is cut off, and the names come behind the rest. `process` is the one that should have
    written it, where that is known."""
    paths = [path for path in paths_of(output) if os.path.exists(path)]
    if not paths:
        return [Found(output, f"{shown(output)} was not written: nothing was recorded. Was there room for a file, and was the program built by `record -- go build`?")]
    return [finish_one(path, process if PROCESS not in output else None) for path in paths]


def finish_one(path: str, process: Optional[int]) -> Found:
    try:
        if writer := writer_of(path):
            return Found(path, f"{shown(path)} is still being written, by process {writer}: it is whole when that ends")
        with Recording(path) as recording:
            if process is not None and recording.header.process != process:
                return Found(path, f"{shown(path)} was written by process {recording.header.process} at the same time, so that nothing was recorded of this run: name another file")
            return close(recording)
    except (tool.Unusable, OSError) as fault:
        return Found(path, tool.told(fault))


def close(recording: Recording) -> Found:
    """Sums a recording up, and closes its file: what was never used is cut off, and the names come behind the rest, where there is room for them."""
    found, stacks = sums(recording)
    chunks = found.size // CHUNK_BYTES
    with open(recording.path, "r+b", buffering=0) as file:
        if recording.header.next_chunk != chunks:  # it was full, and the counter ran on
            os.pwrite(file.fileno(), struct.pack("<Q", chunks), 32)
        file.truncate(found.size)
        try:
            tail = names.packed(names.from_program(recording, recording.header.program, stacks))
            write_all(file.fileno(), tail, found.size)
        except (OSError, tool.Unusable) as fault:
            file.truncate(found.size)
            return found._replace(unnamed=tool.told(fault))
    return found


def write_all(file: int, data: bytes, at: int) -> None:
    while data:
        written = os.pwrite(file, data, at)
        data, at = data[written:], at + written


def sums(recording: Recording) -> Tuple[Found, List[Stack]]:
    """What a recording has, and its stacks."""
    kinds: Counter[int] = Counter()
    mark_ends = 0
    last = None
    chunks = Chunks(recording)
    for number in chunks.numbers:
        chunk = chunks.chunk(number)
        for piece in chunk.pieces():
            if piece.kind == ROW:
                kinds.update(chunk.data[piece.at : piece.end : 16])
            elif piece.kind == LARGE:
                kinds[LARGE] += 1
            elif piece.kind == STACK:
                chunks.take_stack(chunk, piece)
            elif piece.kind == MARK_END:
                mark_ends += 1
                event = chunk.event(piece)
                last = event if last is None or event.ticket > last.ticket else last
    stacks = list(chunks.stacks.values())
    length = os.path.getsize(recording.path) // CHUNK_BYTES
    size = min(recording.header.next_chunk, length) * CHUNK_BYTES
    live = last and last.allocated - last.freed
    objects = kinds.total() - kinds[EMPTY]
    return Found(recording.path, None, objects, kinds[RIDER], kinds[EMPTY], mark_ends, len(stacks), size, live, recording.header.state), stacks


def tell(found: Iterable[Found], say: Callable[[str], None]) -> None:
    """Says what was recorded, and what comes next."""
    good = []
    for one in found:
        if one.fault:
            say(one.fault)
            continue
        good.append(one)
        each = f", {one.size / one.objects:.0f} bytes an object" if one.objects else ""
        live = "" if one.live is None else f"; {tool.size_text(one.live)} in use at the last mark end, before its sweep"
        say(f"{shown(one.path)}: {one.objects:,} objects, {one.mark_ends} mark ends, {one.stacks:,} stacks, {tool.size_text(one.size)}{each}{live}")
        if one.state in STATES:
            say(STATES[one.state])
        if one.unnamed:
            say(f"the names of its stacks are not in the file: {one.unnamed}")
    if good:
        say(f"next: facts {shlex.quote(shown(good[0].path))}")


def shown(path: str) -> str:
    """A file's name as it is told: the shorter one, from here or from the root."""
    return min(path, os.path.relpath(path), key=len)
