"""Reads a stacks file, which `record` writes beside a trace: what it says of the recording, and the frames of each stack."""

import re
from typing import Dict, Iterable, List, NamedTuple, Optional

from goheap_tools.formats.frames import shown_frames
from goheap_tools.tool import Unusable, kind_of, named, reading


FIRST = "# goheap stacks "
# What the runtime describes a goroutine by, and the function that makes it.
GOROUTINE_TYPE, GOROUTINE_FRAME = "runtime.g", "runtime.malg"


class Memory(NamedTuple):
    """Pages of a real run at a mark end that a report does not tell: those of the heap as far as it grew, and of goroutine stacks."""

    heap: int
    stacks: int


class Stacks(NamedTuple):
    """A stacks file: what it says of the recording, and the frames and the type of each stack by its number."""

    header: Dict[str, str]
    frames: Dict[int, List[str]]
    types: Dict[int, str]

    def shown(self, number: int) -> List[str]:
        """The frames of a stack that a table shows. The runtime makes a goroutine's description on a stack of its own, which the log does not
        have: there stands who started the goroutine."""
        frames = shown_frames(self.frames.get(number, []))
        return [GOROUTINE_FRAME, *frames] if self.types.get(number) == GOROUTINE_TYPE else frames

    def memory(self, mark_end: int) -> Optional[Memory]:
        """What a real run had at this mark end, where the header tells."""
        told = self.header.get("memory", "").split(" ")
        found = re.fullmatch("([0-9]+):([0-9]+)", told[mark_end - 1]) if 0 < mark_end <= len(told) else None
        return Memory(int(found[1]), int(found[2])) if found else None

    def frames_bytes(self, mark_end: int) -> int:
        """What the goroutines' frames took of their stacks at this mark end, where a log told it; or 0."""
        told = self.header.get("frames", "").split(" ")
        found = told[mark_end - 1] if 0 < mark_end <= len(told) else ""
        return int(found) if found.isascii() and found.isdigit() else 0

    def number(self, name: str) -> Optional[int]:
        """The number that the header has under this name, or nothing."""
        value = self.header.get(name, "")
        return int(value) if value.isascii() and value.isdigit() else None


def read_stack_file(lines: Iterable[str], name: str = "stacks") -> Stacks:
    """A stacks file as `record` writes it. Older ones have no first lines, and no types."""
    stacks = Stacks({}, {}, {})
    has_types = False
    for at, line in enumerate(lines, 1):
        line = line.rstrip("\n")
        if at == 1 and line.startswith(FIRST):
            has_types = True
            if line != FIRST + "2":
                raise Unusable(f"{name}: line 1: the form of this stacks file is not read here")
        elif at == 1 and kind_of(line):
            raise Unusable(f"{name}: this is {kind_of(line)}, and no stacks file")
        elif has_types and line.startswith("# ") and not stacks.frames:
            key, _, value = line[2:].partition("\t")
            stacks.header[key] = value
        else:
            take_stack(stacks, has_types, line.split("\t"), f"{name}: line {at}: no stack's number")
    return stacks


def take_stack(stacks: Stacks, has_types: bool, words: List[str], fault: str) -> None:
    number, *rest = words
    if not (number.isascii() and number.isdigit()):
        raise Unusable(fault)
    if has_types and rest:
        stacks.types[int(number)] = rest.pop(0)
    stacks.frames[int(number)] = rest


def stack_file(path: str) -> Stacks:
    """The stacks file with what its first lines say."""
    with reading(path) as file:
        return read_stack_file(file, named(path))


def read_stacks(lines: Iterable[str], name: str = "stacks") -> Dict[int, List[str]]:
    """The frames of each stack by its number."""
    return read_stack_file(lines, name).frames


def stacks_in(path: str) -> Dict[int, List[str]]:
    return stack_file(path).frames
