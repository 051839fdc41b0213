"""Reads the recording that a Go program made of itself; docs/recording-format.md says what each byte means.

    with Recording("server.recording") as recording:
        stacks = recording.stacks()
        for event in recording.events():
            ...

A recording that is foreign or damaged is refused by `Damaged`, which says what is wrong and at which byte.
"""

from __future__ import annotations

import heapq
import os
from collections.abc import Iterator
from dataclasses import dataclass
from typing import Any, NoReturn

from ..tool import Unusable

# Some of these are for those who read recordings.
from .events import (
    BEGIN, BLOCK, CACHE, COUNTS, CUT, DROP, EMPTY, FLUSH, GIVE, GREATEST_SLOTS, GROWTH, LARGE, LEADS, LEND, MARK_END, MARK_START, NO_PROCESSOR, NOT_ASKED, OBJECT, PACE,
    PAGE, PAGES, POINTER_FREE, PROCESSORS, PROCESSORS_CHANGE, PULL, RIDER, SAMPLED, SCAVENGED, SPAN, SPAN_CLASSES, STACK, STOP, SWEEP, TAKE, USES, Begin, Block, Cache,
    Counts, Flush, Growth, MarkStart, Object, Pace, Pages, Processors, Run, Scavenging, Span, Stack, Stop, Sweep, Told)  # fmt: skip

MAGIC = int.from_bytes(b"goheaprc", "little")
VERSION = 2
CHUNK_BYTES = 65536
CHUNK_WORDS = CHUNK_BYTES // 8
FIRST_EVENT = 4  # word of a chunk
CHUNK_MARK = 192
STATES = {0: "recording", 1: "the file is full", 2: "the file system has no room"}


class Damaged(Unusable):
    """The file is no recording, or not a whole one."""


@dataclass(frozen=True)
class Header:
    """What the first chunk says."""

    process: int
    next_chunk: int
    next_ticket: int
    stacks_written: int
    state: int
    size: int
    text: tuple[int, int]
    types: tuple[int, int]
    clock: int
    wall: float
    every: int
    from_mark_end: int
    by_signal: bool
    greatest_frames: int
    greatest_stack: int
    stacks_lost: int
    go_version: str
    program: str

    @property
    def full(self) -> bool:
        return self.state != 0


class Recording:
    """A recording in a file. `missing` is the ticket at which it ends, and `left_out` how many events stand behind
    that one; both are known when `events` has come to its end."""

    def __init__(self, path: str | os.PathLike[str]) -> None:
        self.path = os.fspath(path)
        self.missing: int | None = None
        self.left_out = 0
        self._file = open(self.path, "rb", buffering=0)
        try:
            length = os.fstat(self._file.fileno()).st_size
            if length < CHUNK_BYTES:
                raise Damaged(f"{self.path}: no recording: {length} bytes, and its first chunk has {CHUNK_BYTES}")
            self.header = self._read_header()
            if length % CHUNK_BYTES:
                self._refuse(length, f"the file ends within a chunk of {CHUNK_BYTES} bytes")
            self.chunks = self._read_chunks(length // CHUNK_BYTES)
        except BaseException:
            self._file.close()
            raise

    def close(self) -> None:
        self._file.close()

    def bytes(self, begin: int, size: int) -> bytes:
        """So many bytes of the file. It is not mapped: where the file system has no room for a hole of the file, or another process cuts it
        meanwhile, looking at a map would end this one by a signal."""
        found = os.pread(self._file.fileno(), size, begin)
        if len(found) < size:
            self._refuse(begin + len(found), "the file ends here, and is shorter than it was")
        return found

    def __enter__(self) -> Recording:
        return self

    def __exit__(self, *_) -> None:
        self.close()

    def stacks(self) -> dict[int, Stack]:
        """All stacks by their numbers, those of the end that is left out among them."""
        found: dict[int, Stack] = {}
        for numbers in self.chunks.values():
            for number in numbers:
                for event in self._chunk(number, lambda kind: kind == STACK):
                    self.take_stack(event, found, number)
        return found

    def take_stack(self, event: Told, found: dict[int, Stack], number: int) -> None:
        """Puts a stack that stands in chunk `number` to those found before it there."""
        if event.number in found or not 0 < event.number <= self.header.greatest_stack:
            self._refuse(number * CHUNK_BYTES, f"stack {event.number} is told twice, or cannot be")
        found[event.number] = self._whole(event, found, number)

    def _whole(self, event: Told, found: dict[int, Stack], number: int) -> Stack:
        """With the outer frames that it shares with a stack before."""
        frames = event.frames if event.wide else tuple(self.header.text[0] + offset for offset in event.frames)
        if event.shared:
            other = found[event.other].frames if event.other in found else ()
            if len(other) < event.shared:
                self._refuse(number * CHUNK_BYTES, f"stack {event.number} shares frames with {event.other}, which has them not")
            frames += other[-event.shared :]
        return Stack(event.number, event.type, frames, event.cut)

    def events(self) -> Iterator[Any]:
        """All events but stacks, in the order in which they happened, up to the first ticket that is missing."""
        streams = [self._groups(processor) for processor in sorted(self.chunks)]
        heads: list[tuple[int, int, list]] = []
        early: list = []
        for at, stream in enumerate(streams):
            group = next(stream, None)
            if group is not None and group[0] == 0:
                early += group[1]
                group = next(stream, None)
            if group is not None:
                heads.append((group[0], at, group[1]))
        heapq.heapify(heads)
        yield from self._merge(heads, streams, early)

    def _merge(self, heads: list, streams: list, early: list) -> Iterator[Any]:
        expected, skipping = 1, False
        while heads:
            ticket, at, group = heads[0]
            if ticket < expected:
                self._refuse(40, f"ticket {ticket} was drawn twice")
            if ticket > expected:
                break
            following = next(streams[at], None)
            if following is None:
                heapq.heappop(heads)
            else:
                heapq.heapreplace(heads, (following[0], at, following[1]))
            if type(group[0]) is Begin:
                skipping = False
            if not skipping:
                yield from group
                if expected == 1:
                    yield from early
            if type(group[0]) is Stop:
                skipping = True
            expected += 1
        self.missing = expected
        self.left_out = sum(len(group) for _, _, group in heads)
        self.left_out += sum(len(group) for _, at, _ in heads for _, group in streams[at])

    def _groups(self, processor: int) -> Iterator[tuple[int, list]]:
        """Each ticketed event of a processor with what stands behind it, under its ticket (0: before the first)."""
        ticket = 0
        group: list = []
        for number in self.chunks[processor]:
            least = self._word(number * CHUNK_WORDS + 1)
            for event in self._chunk(number, lambda kind: kind != STACK):
                if type(event) is Object:
                    group.append(event)
                    continue
                if group:
                    yield ticket, group
                if event.ticket <= ticket or event.ticket < least:
                    self._refuse(number * CHUNK_BYTES, f"ticket {event.ticket} of this chunk does not rise")
                if event.ticket >= self.header.next_ticket:
                    self._refuse(number * CHUNK_BYTES, f"ticket {event.ticket} of this chunk was never drawn")
                ticket, group = event.ticket, [event]
        if group:
            yield ticket, group

    def _chunk(self, number: int, wanted) -> Iterator[Any]:
        """The wanted events of a chunk."""
        begin = number * CHUNK_BYTES
        words = memoryview(self.bytes(begin, CHUNK_BYTES)).cast("Q").tolist()
        processor = words[0] >> 16
        at, all_objects = FIRST_EVENT, wanted(OBJECT)
        while at < CHUNK_WORDS:
            first = words[at]
            if first == 0:
                return
            kind = first & 255
            if kind <= RIDER:
                if at + 2 > CHUNK_WORDS or first & 0xF000 or kind == 0:
                    self._refuse_event(begin + 8 * at, first, at + 2)
                if all_objects:
                    second = words[at + 1]
                    yield Object(kind, processor, first >> 8 & 255, first >> 16, second >> 32, second & 0xFFFFFFFF)
                at += 2
                continue
            reader = READERS.get(kind)
            if reader is None or at + reader.least > CHUNK_WORDS:
                self._refuse_event(begin + 8 * at, first, CHUNK_WORDS + 1)
            length = reader.length(words, at)
            if at + length > CHUNK_WORDS or first >> 8 & 255 & ~reader.flags:
                self._refuse_event(begin + 8 * at, first, at + length)
            if wanted(kind):
                event = reader.read(words, at, processor)
                if event is None:
                    self._refuse(begin + 8 * at, f"an event of kind {kind} has a number that it cannot have")
                yield event
            at += length

    def _read_header(self) -> Header:
        words = memoryview(self.bytes(0, CHUNK_BYTES)).cast("Q").tolist()
        if words[0] != MAGIC:
            self._refuse(0, "no recording: it does not begin with goheaprc")
        if words[1] != VERSION:
            self._refuse(8, f"a recording of version {words[1]}, and only {VERSION} is known")
        if words[2] != CHUNK_BYTES:
            self._refuse(16, f"chunks of {words[2]} bytes, not {CHUNK_BYTES}")
        if words[7] not in STATES:
            self._refuse(56, f"a state {words[7]} that is not known")
        for at in (*range(22, 32), *range(304, CHUNK_WORDS)):
            if words[at]:
                self._refuse(8 * at, "a word of the header that should be 0 is not")
        text = self.bytes(256, 2432 - 256)
        return Header(
            process=words[3], next_chunk=words[4], next_ticket=words[5], stacks_written=words[6], state=words[7],
            size=words[8], text=(words[9], words[10]), types=(words[11], words[12]), clock=words[13],
            wall=words[14] + words[15] / 1e9, every=words[16], from_mark_end=words[17], by_signal=words[18] != 0,
            greatest_frames=words[19], greatest_stack=words[20], stacks_lost=words[21],
            go_version=text[:128].split(b"\0")[0].decode("utf-8", "replace"),
            program=os.fsdecode(text[128:].split(b"\0")[0]))

    def _read_chunks(self, there: int) -> dict[int, list[int]]:
        """The numbers of the chunks of each processor, in their order."""
        if self.header.next_chunk > there and not self.header.full:
            self._refuse(32, f"{self.header.next_chunk} chunks are in use, and the file has {there}")
        chunks: dict[int, list[int]] = {}
        for number in range(1, min(there, self.header.next_chunk)):
            first = self._word(number * CHUNK_WORDS)
            if first == 0:
                continue
            processor = first >> 16
            if first & 0xFFFF != CHUNK_MARK or not (processor < PROCESSORS or processor == NO_PROCESSOR):
                self._refuse(number * CHUNK_BYTES, "no chunk of a recording begins here")
            before = chunks.setdefault(processor, [])
            told = self._word(number * CHUNK_WORDS + 3)
            if told != (before[-1] if before else 0):
                self._refuse(number * CHUNK_BYTES + 24, f"chunk {told} should come before this one, and does not")
            before.append(number)
        return chunks

    def _word(self, at: int) -> int:
        return int.from_bytes(self.bytes(8 * at, 8), "little")

    def _refuse_event(self, offset: int, first: int, end: int) -> NoReturn:
        kind = first & 255
        if kind not in READERS and kind not in (OBJECT, RIDER):
            self._refuse(offset, f"an event of kind {kind}, which is not known")
        if end > CHUNK_WORDS:
            self._refuse(offset, f"an event of kind {kind} goes over the end of its chunk")
        self._refuse(offset, f"an event of kind {kind} has a flag that it cannot have")

    def _refuse(self, offset: int, reason: str) -> NoReturn:
        raise Damaged(f"{self.path}: byte {offset}: {reason}")


class _Reader:
    """How an event of a kind is read: `flags` that it may have, `least` words, and `read` from its words."""

    def __init__(self, flags: int, least: int, read, bits=None) -> None:
        self.flags = flags
        self.least = least
        self.read = read
        self.bits = bits  # words behind the least ones

    def length(self, words: list[int], at: int) -> int:
        return self.least + max(0, self.bits(words, at) if self.bits else 0)


def _low(word: int, bits: int, at: int = 0) -> int:
    return word >> at & (1 << bits) - 1


def _bitmap(words: list[int], at: int, count: int) -> int:
    return sum(word << 64 * i for i, word in enumerate(words[at : at + count]))


def _slots(word: int) -> tuple[int, int, int, int]:
    return _low(word, 16), _low(word, 16, 16), _low(word, 16, 32), word >> 48


def _object(words: list[int], at: int, processor: int):
    first, second = words[at], words[at + 1]
    kind, flags, address = first & 255, first >> 8 & 255, first >> 16
    if kind == LARGE:
        return None if second >> 32 else Object(kind, processor, flags, address, words[at + 2], second)
    return Object(kind, processor, flags, address, second >> 32, second & 0xFFFFFFFF)


def _stack_words(words: list[int], at: int) -> int:
    """How many words its frames have."""
    own = _low(words[at + 2], 16) - _low(words[at + 2], 16, 16)
    return own if words[at] & 0x200 else (own + 1) // 2


def _stack(words: list[int], at: int, _: int):
    first, second = words[at], words[at + 2]
    count, shared = _low(second, 16), _low(second, 16, 16)
    if shared > count:
        return None
    wide = bool(first & 0x200)
    frames = words[at + 3 : at + 3 + _stack_words(words, at)]
    if not wide:
        frames = [half for word in frames for half in (word & 0xFFFFFFFF, word >> 32)]
        if len(frames) > count - shared and frames.pop():
            return None
    return Told(first >> 16, words[at + 1], tuple(frames), shared, second >> 32, wide, bool(first & 0x100))


def _begin(words: list[int], at: int, processor: int):
    reason = words[at] >> 8 & 255
    return None if reason > 2 else Begin(words[at + 1], processor, reason, *words[at + 2 : at + 6])


def _counts(words: list[int], at: int, processor: int):
    first = words[at]
    return Counts(first & 255, words[at + 1], processor, first >> 8 & 255, first >> 16, *words[at + 2 : at + 14])


def _sweep(words: list[int], at: int, processor: int):
    slots, free_index, before, after = _slots(words[at + 2])
    third = words[at + 3]
    stays = _bitmap(words, at + 4, (slots + 63) // 64)
    if slots > GREATEST_SLOTS or stays >> slots or free_index > slots or before > slots or after != stays.bit_count() or third >> 8 & 0xFFFFFF:
        return None
    return Sweep(words[at + 1], processor, words[at] >> 16, slots, free_index, before, after, third & 255,
                 third >> 32, bool(words[at] & 0x100), stays)


def _pace(words: list[int], at: int, processor: int):
    return Pace(words[at + 1], processor, bool(words[at] & 0x100), *words[at + 2 : at + 7])


def _block(words: list[int], at: int, processor: int):
    kind = words[at] & 255
    owner = processor if kind == PULL else words[at + 4]
    return Block(kind, words[at + 1], processor, words[at] >> 16, words[at + 2], words[at + 3], owner)


def _run(words: list[int], at: int, processor: int):
    kind, word = words[at] & 255, words[at + 2]
    use, span_class = _low(word, 8, 40), _low(word, 8, 32)
    if word >> 48 or use >= len(USES) or span_class >= SPAN_CLASSES:
        return None
    scavenged = 0 if kind == GIVE else words[at + 3]
    return Run(kind, words[at + 1], processor, words[at] >> 16, _low(word, 32), span_class, use, scavenged)


def _span(words: list[int], at: int, processor: int):
    word = words[at + 2]
    slots, free_index, objects, rest = _slots(words[at + 3])
    use, span_class = _low(word, 8, 40), _low(word, 8, 32)
    occupied = _bitmap(words, at + 5, (slots + 63) // 64)
    if word >> 48 or rest or use >= len(USES) or span_class >= SPAN_CLASSES or slots > GREATEST_SLOTS or occupied >> slots:
        return None
    cached = words[at + 4] - 1 if words[at + 4] else None
    return Span(words[at + 1], processor, words[at] >> 16, _low(word, 32), span_class, use, slots, free_index, objects,
                cached, occupied)


def _pages(words: list[int], at: int, processor: int):
    return Pages(words[at + 1], processor, words[at] >> 16, _bitmap(words, at + 2, 8), _bitmap(words, at + 10, 8))


def _cache(words: list[int], at: int, processor: int):
    word = words[at + 2]
    span_class = _low(word, 8)
    if word >> 8 & 255 or span_class >= SPAN_CLASSES:
        return None
    return Cache(words[at + 1], processor, words[at] >> 16, span_class, *_slots(word)[1:])


def _flush(words: list[int], at: int, processor: int):
    return Flush(words[at + 1], processor, words[at + 2], bool(words[at] & 0x100))


def _addressed(kind: type, *, told: bool = False):
    """Reads a record of ticket, processor, address and one word; with the kind before them where it is told."""
    if told:
        return lambda words, at, processor: kind(words[at] & 255, words[at + 1], processor, words[at] >> 16, words[at + 2])
    return lambda words, at, processor: kind(words[at + 1], processor, words[at] >> 16, words[at + 2])


READERS = {
    OBJECT: _Reader(15, 2, _object),
    RIDER: _Reader(15, 2, _object),
    EMPTY: _Reader(15, 2, _object),
    LARGE: _Reader(15, 3, _object),
    STACK: _Reader(3, 3, _stack, _stack_words),
    BEGIN: _Reader(3, 6, _begin),
    STOP: _Reader(0, 3, lambda words, at, processor: Stop(words[at + 1], processor, words[at + 2])),
    MARK_START: _Reader(0, 4, lambda words, at, processor: MarkStart(words[at + 1], processor, *words[at + 2 : at + 4])),
    MARK_END: _Reader(3, 14, _counts),
    SWEEP: _Reader(1, 4, _sweep, lambda words, at: ((words[at + 2] & 0xFFFF) + 63) // 64),
    PACE: _Reader(1, 7, _pace),
    PULL: _Reader(0, 4, _block),
    DROP: _Reader(0, 5, _block),
    CUT: _Reader(0, 4, _run),
    TAKE: _Reader(0, 4, _run),
    GIVE: _Reader(0, 3, _run),
    GROWTH: _Reader(0, 3, _addressed(Growth)),
    LEND: _Reader(0, 3, _addressed(Scavenging, told=True)),
    SCAVENGED: _Reader(0, 3, _addressed(Scavenging, told=True)),
    CACHE: _Reader(0, 3, _cache),
    FLUSH: _Reader(1, 3, _flush),
    COUNTS: _Reader(0, 14, _counts),
    PROCESSORS_CHANGE: _Reader(0, 4, lambda words, at, processor: Processors(words[at + 1], processor, *words[at + 2 : at + 4])),
    SPAN: _Reader(0, 5, _span, lambda words, at: ((words[at + 3] & 0xFFFF) + 63) // 64),
    PAGES: _Reader(0, 18, _pages),
    BLOCK: _Reader(0, 5, _block),
}
