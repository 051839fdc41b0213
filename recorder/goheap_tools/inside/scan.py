"""Goes through the chunks of a recording without an object for each event, where sums are wanted and not each allocation.

Most events are allocations of two words, and stand in rows: one search finds where a row ends, and a row is summed up at once. All others are
told one by one.
"""

import re
from typing import Any, Dict, Iterator, List, NamedTuple, NoReturn

from goheap_tools import tool
from goheap_tools.inside.recording import CHUNK_BYTES, READERS, Recording, Stack

ROW = 0  # the kind of a row of allocations, in what `walk` answers
# Allocations of two words: kinds 1 to 3, each with its flags.
ALLOCATIONS = re.compile(rb"(?:[\x01-\x03][\x00-\x0f].{14})++", re.DOTALL)
FIRST_BYTE = 32
CHUNK_WORDS = CHUNK_BYTES // 8


class Piece(NamedTuple):
    kind: int  # ROW, or that of one event
    at: int  # its first byte in the chunk
    end: int


class Chunk:
    """A chunk's bytes, and its words."""

    def __init__(self, path: str, number: int, data: bytes):
        self.path, self.number, self.data = path, number, data
        self.words: Any = memoryview(data).cast("Q")  # read as a list of integers is
        self.processor = self.words[0] >> 16

    def pieces(self, at: int = FIRST_BYTE) -> Iterator[Piece]:
        """Its events from this byte on; allocations of two words as rows."""
        data, words = self.data, self.words
        while at < CHUNK_BYTES:
            row = ALLOCATIONS.match(data, at)
            if row:
                yield Piece(ROW, at, row.end())
                at = row.end()
                continue
            kind = data[at]
            if not kind:
                return
            end = at + 8 * self.length(kind, at // 8)
            yield Piece(kind, at, end)
            at = end

    def length(self, kind: int, at: int) -> int:
        """The words of the event that begins at this word."""
        reader = READERS.get(kind)
        if reader is None:
            self.refuse(8 * at, f"an event of kind {kind}, which is not known")
        length = reader.length(self.words, at) if at + reader.least <= CHUNK_WORDS else CHUNK_WORDS + 1
        if at + length > CHUNK_WORDS:
            self.refuse(8 * at, f"an event of kind {kind} goes over the end of its chunk")
        if self.data[8 * at + 1] & ~reader.flags:
            self.refuse(8 * at, f"an event of kind {kind} has a flag that it cannot have")
        return length

    def refuse(self, at: int, why: str) -> NoReturn:
        """What is wrong at this byte of the chunk."""
        raise tool.Unusable(f"{self.path}: byte {self.number * CHUNK_BYTES + at}: {why}")

    def event(self, piece: Piece) -> Any:
        """The event of a piece that is no row."""
        event = READERS[piece.kind].read(self.words, piece.at // 8, self.processor)
        if event is None:
            self.refuse(piece.at, f"an event of kind {piece.kind} has a number that it cannot have")
        return event


class Chunks:
    """The chunks of a recording, read as they are asked for."""

    def __init__(self, recording: Recording):
        self.recording, self.path = recording, recording.path
        self.stacks: Dict[int, Stack] = {}
        self.numbers: List[int] = sorted(number for numbers in recording.chunks.values() for number in numbers)
        self.by_processor = recording.chunks

    def chunk(self, number: int) -> Chunk:
        return Chunk(self.path, number, self.recording.bytes(number * CHUNK_BYTES, CHUNK_BYTES))

    def take_stack(self, chunk: Chunk, piece: Piece) -> None:
        """Takes the stack that is told there in with those before, whose outer frames it may share."""
        self.recording.take_stack(chunk.event(piece), self.stacks, chunk.number)
