"""Frames of stacks as `record` writes them, `FUNCTION FILE:LINE`, and which of them a table shows."""

import itertools
from typing import List, Optional

# Functions of the allocator itself, which say nothing of who allocated.
OWN = ("runtime.mallocgc", "runtime.newobject", "runtime.makeslice", "runtime.makeslice64", "runtime.makeslicecopy", "runtime.growslice", "runtime.newarray", "runtime.rawstring",
       "runtime.rawbyteslice", "runtime.rawruneslice", "runtime.concatstrings", "runtime.concatstring2", "runtime.concatstring3", "runtime.slicebytetostring", "runtime.stringtoslicebyte")
# Functions that make a list of the type that they are given.
LISTS = ("runtime.makeslice", "runtime.makeslice64", "runtime.makeslicecopy", "runtime.growslice")


def name_of(frame: str) -> str:
    """The function of a frame; a compiler's own has blanks in its name, and then the file has none."""
    return frame.rpartition(" ")[0] if frame.startswith("type..") else frame.partition(" ")[0]


def place_of(frame: str) -> str:
    """FILE:LINE of a frame."""
    return frame[len(name_of(frame)) + 1 :]


def is_runtime(name: str) -> bool:
    """Whether the function is the runtime's; a stack in a log has `panic` for `runtime.gopanic`."""
    return name.startswith("runtime.") or name == "panic"


def shown_frames(frames: List[str]) -> List[str]:
    """The frames without the runtime's innermost ones, as Go's heap profiles leave them out; without the allocator's where all are the runtime's."""
    for is_hidden in (is_runtime, lambda name: name in OWN):
        outer = list(itertools.dropwhile(lambda frame: is_hidden(name_of(frame)), frames))
        if outer:
            return outer
    return frames or ["(no frames)"]


def type_of(name: Optional[str], frames: List[str]) -> str:
    """What was allocated: the type's name, as a list of it where the runtime was asked for a list."""
    if not name:
        return "(bytes without a type)"
    return f"[]{name}" if any(name_of(frame) in LISTS for frame in frames[:3]) else name
