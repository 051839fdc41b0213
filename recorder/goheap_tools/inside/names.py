"""Names of a recording's stacks and types: those that `record` wrote behind the recording, or else those of the program's file.

`record` puts them into the file when the program has ended, behind the last chunk, so that a recording can be read where the program is
not: the bytes `goheapnm`, a word with the version, a word with the length of what follows, then that: the names as JSON, packed by zlib. Zeros fill the last chunk.
"""

import json
import os
import struct
import zlib
from typing import Dict, Iterable, List, NamedTuple, Optional, Sequence, Tuple

from goheap_tools import tool
from goheap_tools.formats.frames import OWN, is_runtime
from goheap_tools.inside.elf import Elf
from goheap_tools.inside.recording import CHUNK_BYTES, Recording, Stack
from goheap_tools.inside.symbols import FAULT, KEEP_WRAPPERS, WRAPPER, Frame, Symbols
from goheap_tools.inside.types import Type, Types

MAGIC = b"goheapnm"
VERSION = 1
MOST_BYTES = 1 << 30
# Where the runtime leaves a goroutine's stack for one of its own, on which it allocates for that goroutine.
SWITCHES = ("runtime.systemstack", "runtime.mcall", "runtime.mstart", "runtime.mstart1", "runtime.morestack")


class Names:
    """What the return addresses and the addresses of types of one recording stand for. `places` has the frames of each return address, the
    innermost inlined one first, each with its function's identifier; `types` the type at each address."""

    def __init__(self, places: Dict[int, Tuple[Tuple[Frame, int], ...]], types: Dict[int, Type], program: str = ""):
        self.places, self.types, self.program = places, types, program

    def frames(self, stack: Stack) -> Tuple[Frame, ...]:
        """The frames of a stack, the innermost first; of an address without a name the address."""
        shown: List[Frame] = []
        last = None
        for address in stack.frames:
            for frame, identifier in self.places.get(address) or ((Frame(f"{address:#x}", "?", 0), 0),):
                if identifier != WRAPPER or last in KEEP_WRAPPERS:
                    shown.append(frame)
                last = identifier
        return tuple(shown)

    def type_name(self, stack: Stack) -> Optional[str]:
        """The name of the type of a stack's objects, or nothing where the runtime was given none or made it as it ran."""
        found = self.types.get(stack.type)
        return found and found.name


def who(frames: Sequence[Frame]) -> Tuple[Frame, ...]:
    """The frames that say who allocated. The runtime's innermost ones say nothing where a goroutine asked for the object itself. Where the
    runtime allocates for a goroutine, on a stack of its own, its function comes first, as in Go's profiles, and the goroutine's frames behind it:
    a new goroutine's descriptor is of `runtime.malg`, called by who began the goroutine."""
    switch = next((at for at, frame in enumerate(frames) if frame.function in SWITCHES), None)
    if switch is not None and all(is_runtime(frame.function) for frame in frames[:switch]):
        inner = [frame for frame in frames[:switch] if frame.function not in OWN]
        return (*inner, *(frame for frame in frames[switch:] if not is_runtime(frame.function)))
    outer = next((at for at, frame in enumerate(frames) if not is_runtime(frame.function)), None)
    if outer is None:
        outer = next((at for at, frame in enumerate(frames) if frame.function not in OWN), 0)
    return tuple(frames[outer:])


# Names from the program's file.


def from_program(recording: Recording, path: str, stacks: Iterable[Stack]) -> Names:
    """The names that the program's file has for what stands in these stacks. Refuses a file that is not that of the recording."""
    header = recording.header
    elf = Elf(path)
    try:
        symbols = Symbols(elf)
        if symbols.entries[-1] != header.text[1] - header.text[0]:
            raise tool.Unusable(f"{path} is not the program of {recording.path}: its code has another length; was it built anew?")
        moved = header.text[0] - symbols.text
        types = Types(symbols)
        places, named = {}, {}
        for stack in stacks:
            found = types.at(stack.type - moved) if stack.type else None
            if found:
                named[stack.type] = found
            last = None
            for address in stack.frames:
                frames = symbols.frames(address - moved - (last != FAULT))
                places[address] = frames
                last = frames[-1][1] if frames else None
        return Names(places, named, os.path.basename(path))
    finally:
        elf.close()


# Names behind a recording.


def end_of(recording: Recording) -> int:
    """Where the recording ends and its names begin, in bytes."""
    return recording.header.next_chunk * CHUNK_BYTES


def packed(names: Names) -> bytes:
    """The names as they stand behind a recording, each function and file once."""
    texts: Dict[str, int] = {}
    number = lambda text: texts.setdefault(text, len(texts))
    places = {f"{address:x}": [[number(frame.function), number(frame.file), frame.line, identifier] for frame, identifier in frames] for address, frames in names.places.items()}
    types = {f"{address:x}": list(one) for address, one in names.types.items()}
    text = json.dumps({"program": names.program, "texts": list(texts), "places": places, "types": types}, separators=(",", ":"))
    body = zlib.compress(text.encode("utf-8", "surrogateescape"))
    whole = MAGIC + struct.pack("<QQ", VERSION, len(body)) + body
    return whole + bytes(-len(whole) % CHUNK_BYTES)


def behind(recording: Recording) -> Optional[Names]:
    """The names that stand behind a recording, or nothing where none do."""
    begin = end_of(recording)
    with open(recording.path, "rb") as file:
        file.seek(begin)
        head = file.read(24)
        if len(head) < 24 or head[:8] != MAGIC:
            return None
        version, length = struct.unpack_from("<QQ", head, 8)
        if version != VERSION:
            raise tool.Unusable(f"{recording.path}: byte {begin + 8}: names of version {version}, and only {VERSION} is known")
        body = file.read(length) if length <= MOST_BYTES else b""
    if len(body) < length:
        raise tool.Unusable(f"{recording.path}: byte {begin + 16}: {length} bytes of names should stand here, and do not")
    try:
        told = json.loads(zlib.decompressobj().decompress(body, MOST_BYTES).decode("utf-8", "surrogateescape"))
        texts = told["texts"]
        frame = lambda function, file, line, identifier: (Frame(texts[function], texts[file], int(line)), int(identifier))
        places = {int(address, 16): tuple(frame(*one) for one in frames) for address, frames in told["places"].items()}
        return Names(places, {int(address, 16): Type(*one) for address, one in told["types"].items()}, str(told["program"]))
    except (zlib.error, ValueError, LookupError, TypeError, AttributeError):
        raise tool.Unusable(f"{recording.path}: byte {begin + 24}: the names that stand here are damaged") from None


def names_of(recording: Recording, stacks: Iterable[Stack], program: Optional[str] = None) -> Tuple[Names, Optional[str]]:
    """The names of a recording's stacks, and why there are none where so: those of the program that is named, else those behind the recording, else those of
    the file that the recording names."""
    if program:
        return from_program(recording, program, stacks), None
    found = behind(recording)
    if found:
        return found, None
    try:
        return from_program(recording, recording.header.program, stacks), None
    except (OSError, tool.Unusable) as fault:
        return Names({}, {}), tool.told(fault)
