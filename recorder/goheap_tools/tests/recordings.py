"""Small recordings that the tests write word by word, as docs/recording-format.md has them."""

import struct
from typing import Iterable, List, Optional, Sequence

CHUNK = 65536
HEAP = 0xC000000000
TEXT, TYPES = 0x401000, 0x489000
PAGE = 8192


def first(kind: int, flags: int = 0, a: int = 0) -> int:
    return kind | flags << 8 | a << 16


def small(kind: int, address: int, size: int, stack: int, flags: int = 0) -> List[int]:
    """An object of two words: kind 1 has a slot of its own, 2 rides, 3 is empty."""
    return [first(kind, flags, address), size << 32 | stack]


def large(address: int, size: int, stack: int, flags: int = 0) -> List[int]:
    return [first(4, flags, address), stack, size]


def stack(number: int, kind: int, frames: Sequence[int]) -> List[int]:
    """A wide stack: each return address has a word."""
    return [first(5, 2, number), kind, len(frames), *frames]


def begin(ticket: int, reason: int = 0, mark_ends: int = 0, processors: int = 1, rate: int = 0) -> List[int]:
    return [first(16, reason), ticket, 0, mark_ends, processors, rate]


def counts(kind: int, ticket: int, clock: int, collections: int, mallocs: int, frees: int, allocated: int, freed: int, heap: int, stacks: int, released: int, rate: int = 0) -> List[int]:
    """The runtime's counters: kind 19 is a mark end, 32 a call of ReadMemStats."""
    return [first(kind, 0, 2 * collections if kind == 19 else 0), ticket, clock, collections, 0, rate, mallocs, frees, allocated, freed, heap, stacks, released, 0]


def run(kind: int, ticket: int, address: int, pages: int, span_class: int = 0, use: int = 0, scavenged: Optional[int] = 0) -> List[int]:
    """Pages are cut (24), taken (25) or given back (26)."""
    words = [first(kind, 0, address), ticket, pages | span_class << 32 | use << 40]
    return words if kind == 26 else [*words, scavenged or 0]


def sweep(ticket: int, address: int, slots: int, before: int, stays: Iterable[int], span_class: int) -> List[int]:
    kept = list(stays)
    bits = [sum(1 << slot % 64 for slot in kept if slot // 64 == word) for word in range((slots + 63) // 64)]
    return [first(20, 0, address), ticket, slots | before << 32 | len(kept) << 48, span_class | 2 << 32, *bits]


def simple(kind: int, ticket: int, word: int, address: int = 0, flags: int = 0) -> List[int]:
    """Of three words: growth (27), lend (28), scavenged (29), flush (31)."""
    return [first(kind, flags, address), ticket, word]


def recording(processors: Sequence[Sequence[Sequence[int]]], next_ticket: int, state: int = 0, program: str = "/nowhere/server", process: int = 1) -> bytes:
    """The bytes of a recording in which each processor has one chunk with these events."""
    header = [int.from_bytes(b"goheaprc", "little"), 2, CHUNK, process, 1 + len(processors), next_ticket, 0, state, CHUNK * (1 + len(processors)), TEXT, TEXT + 0x1000, TYPES, TYPES + 0x1000, 0, 0, 0,
              1, 0, 0, 128, 4096]  # fmt: skip
    whole = bytearray(struct.pack(f"<{len(header)}Q", *header).ljust(CHUNK, b"\0"))
    whole[256 : 256 + 9] = b"go1.21.13"
    whole[384 : 384 + len(program)] = program.encode()
    for number, events in enumerate(processors):
        words = [192 | number << 16, 1, 0, 0, *(word for event in events for word in event)]
        whole += struct.pack(f"<{len(words)}Q", *words).ljust(CHUNK, b"\0")
    return bytes(whole)
