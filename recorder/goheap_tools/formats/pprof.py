"""Writes a profile in the form of `go tool pprof`."""

from typing import Any, Iterable, Tuple

from goheap_tools import tool
from goheap_tools.formats.frames import name_of, place_of
from goheap_tools.formats.heaptext import Bucket, Heap
from goheap_tools.formats.stacks import Stacks
from goheap_tools.heap.estimate import factor

# The fields of a profile, by the public description of the form, profile.proto of github.com/google/pprof.
SAMPLE_TYPE, SAMPLE, MAPPING, LOCATION, FUNCTION, STRING, PERIOD_TYPE, PERIOD, COMMENT, DEFAULT_TYPE = 1, 2, 3, 4, 5, 6, 11, 12, 13, 14
TYPES = (("alloc_objects", "count"), ("alloc_space", "bytes"), ("inuse_objects", "count"), ("inuse_space", "bytes"))


def varint(value: int) -> bytes:
    """A number in groups of seven bits, the low ones first."""
    out = bytearray()
    while value > 0x7F:
        out.append(value & 0x7F | 0x80)
        value >>= 7
    out.append(value)
    return bytes(out)


def number(field: int, value: int) -> bytes:
    """A field that is a number; one of 0 is left out."""
    return varint(field << 3) + varint(value) if value else b""


def message(field: int, content: bytes) -> bytes:
    """A field that has a length: a message, a text, or numbers that are packed."""
    return varint(field << 3 | 2) + varint(len(content)) + content


def packed(field: int, values: Iterable[int]) -> bytes:
    return message(field, b"".join(map(varint, values)))


class Table:
    """Things that are named by their numbers, each of which is written once."""

    def __init__(self, first: int) -> None:
        self.numbers = {}
        self.first = first

    def number(self, thing: Any) -> int:
        return self.numbers.setdefault(thing, len(self.numbers) + self.first)


class Profile:
    """A profile that is put together."""

    def __init__(self, stacks: Stacks) -> None:
        self.stacks = stacks
        self.texts = Table(0)
        self.texts.number("")
        self.functions = Table(1)  # by name and file
        self.locations = Table(1)  # by function and line
        self.parts = []

    def type_of(self, name: str, unit: str) -> bytes:
        return number(1, self.texts.number(name)) + number(2, self.texts.number(unit))

    def location(self, frame: str) -> int:
        """The number of a frame's place."""
        file, colon, line = place_of(frame).rpartition(":")
        if not (colon and line.isascii() and line.isdigit()):
            file, line = place_of(frame), "0"
        return self.locations.number((self.functions.number((name_of(frame), file)), min(int(line), (1 << 63) - 1)))

    def add(self, bucket: Bucket, values: Iterable[int]) -> None:
        """A sample: its places from the innermost frame on, its values, and its slot size."""
        places = [self.location(frame) for frame in self.stacks.shown(bucket.stack)]
        label = number(1, self.texts.number("bytes")) + number(3, bucket.slot)
        self.parts.append(message(SAMPLE, packed(1, places) + packed(2, values) + message(3, label)))

    def whole(self, rate: int, comment: str) -> bytes:
        """All of it, the tables last, since the samples fill them."""
        head = [message(SAMPLE_TYPE, self.type_of(*one)) for one in TYPES]
        head.append(message(PERIOD_TYPE, self.type_of("space", "bytes")) + number(PERIOD, rate))
        head.append(number(COMMENT, self.texts.number(comment)) + number(DEFAULT_TYPE, self.texts.number(TYPES[3][0])))
        program = self.texts.number(self.stacks.header.get("program", ""))
        # One mapping, which has all names, so that nobody looks for them in the program's file.
        head.append(message(MAPPING, number(1, 1) + number(5, program) + b"".join(number(field, 1) for field in (7, 8, 9))))
        places = []
        for (function, line), one in self.locations.numbers.items():
            places.append(message(LOCATION, number(1, one) + number(2, 1) + message(4, number(1, function) + number(2, line))))
        functions = []
        for (name, file), one in self.functions.numbers.items():
            text = self.texts.number(name)
            functions.append(message(FUNCTION, number(1, one) + number(2, text) + number(3, text) + number(4, self.texts.number(file))))
        texts = [message(STRING, text.encode(errors="replace")) for text in self.texts.numbers]
        return b"".join(head + self.parts + places + functions + texts)


def values_of(bucket: Bucket, times: float) -> Tuple[int, int, int, int]:
    """The values of the four sample types."""
    numbers = bucket.numbers
    if times == 1:
        return numbers.all_objects, numbers.all_bytes, numbers.objects, numbers.bytes
    all_objects, objects = round(numbers.all_objects * times), round(numbers.objects * times)
    return all_objects, all_objects * bucket.slot, objects, objects * bucket.slot


def profile_of(heap: Heap, stacks: Stacks, scale: bool) -> bytes:
    profile = Profile(stacks)
    for line, bucket in enumerate(heap.buckets, 2):
        if bucket.stack not in stacks.frames:
            raise tool.Unusable(f"line {line} of the heap text is of stack {bucket.stack}, which the stacks do not have: they are of another recording")
        profile.add(bucket, values_of(bucket, factor(bucket.slot, heap.rate) if scale else 1))
    what = "estimated of all objects" if scale and heap.rate > 1 else "of the objects that were sampled"
    return profile.whole(heap.rate, f"goheap: the heap as of the last mark end, {what} at rate {heap.rate}")
