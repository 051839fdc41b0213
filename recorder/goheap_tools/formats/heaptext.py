"""Reads a heap text of goheap, in the form that docs/profile.md has."""

import re
from typing import Dict, Iterable, List, Match, NamedTuple, Optional, Tuple

from goheap_tools.formats.report import Report
from goheap_tools.tool import Unusable, kind_of

# Each sum of a text is below this.
LIMIT = 1 << 63
# The most that twice a rate may be.
MOST_TWICE = 1 << 31
# The most that a stack's number may be.
MOST_STACK = (1 << 32) - 1

NUMBER = "(0|[1-9][0-9]*)"
FOUR = rf"{NUMBER}: {NUMBER} \[{NUMBER}: {NUMBER}\] @ "
TOP = re.compile(rf"heap profile: {FOUR}heap/{NUMBER}\n", re.ASCII)
LINE = re.compile(FOUR + r"0x(0|[1-9a-f][0-9a-f]*)\n", re.ASCII)


class Numbers(NamedTuple):
    """Of the objects of a stack and slot size: those in use and their bytes, and all that were allocated and theirs."""

    objects: int
    bytes: int
    all_objects: int
    all_bytes: int


class Bucket(NamedTuple):
    numbers: Numbers
    slot: int
    stack: int


class Heap(NamedTuple):
    rate: int
    sums: Numbers
    buckets: List[Bucket]


def numbers_in(match: Match[str]) -> Numbers:
    return Numbers(*map(int, match.groups()[:4]))


def bucket_in(line: str) -> Bucket:
    """The bucket of a line; ValueError where it is none."""
    match = LINE.fullmatch(line)
    if not match:
        raise ValueError(line)
    numbers, stack = numbers_in(match), int(match[5], 16)
    if not (1 <= numbers.all_objects >= numbers.objects and stack <= MOST_STACK):
        raise ValueError(line)
    slot = numbers.all_bytes // numbers.all_objects
    if not (slot and numbers.all_bytes == numbers.all_objects * slot and numbers.bytes == numbers.objects * slot):
        raise ValueError(line)
    return Bucket(numbers, slot, stack)


def read_heap(lines: Iterable[str], name: str = "heap") -> Heap:
    """The heap text. Unusable names the first line with which the lines are none."""
    top, buckets, sums, number = None, [], Numbers(0, 0, 0, 0), 0
    for number, line in enumerate(lines, 1):
        if number == 1:
            if not line.startswith("heap profile: ") and kind_of(line):
                raise Unusable(f"{name}: this is {kind_of(line)}, and no heap text (goheap heap makes one of a trace and its report)")
            top = TOP.fullmatch(line)
            if not top or int(top[5]) % 2 or int(top[5]) > MOST_TWICE or max(numbers_in(top)) >= LIMIT:
                raise Unusable(f"{name}: line 1: no first line of a heap text")
            continue
        try:
            bucket = bucket_in(line)
        except ValueError:
            raise Unusable(f"{name}: line {number}: no line of a heap text") from None
        sums = Numbers(*(a + b for a, b in zip(sums, bucket.numbers)))
        if max(sums) >= LIMIT or buckets and buckets[-1].numbers.bytes < bucket.numbers.bytes:
            raise Unusable(f"{name}: line {number}: no line of a heap text")
        buckets.append(bucket)
    if top is None:
        raise Unusable(f"{name}: there is nothing in it")
    if sums != numbers_in(top):
        raise Unusable(f"{name}: line 1: its sums are not those of the lines")
    return Heap(int(top[5]) // 2, sums, buckets)


def heap_of(report: Report, rate: int) -> Heap:
    """The heap text that the profile of a report's last mark end comes to: its buckets by falling bytes in use."""
    last: Dict[Tuple[int, int], Bucket] = {}
    for one in report.buckets:
        objects = one.allocs - one.frees
        numbers = Numbers(objects, objects * one.slot, one.allocs, one.allocs * one.slot)
        last[one.stack, one.slot] = Bucket(numbers, one.slot, one.stack)
    buckets = sorted(last.values(), key=lambda bucket: (-bucket.numbers.bytes, bucket.stack, bucket.slot))
    return Heap(rate, Numbers(*(sum(bucket.numbers[at] for bucket in buckets) for at in range(4))), buckets)
