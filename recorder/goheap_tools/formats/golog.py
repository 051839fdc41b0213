"""Reads what a Go program (1.19 to 1.21) writes to standard error under GODEBUG=allocfreetrace=1.

The runtime writes a block for each allocation (`tracealloc`), each object that a sweep frees (`tracefree`) and each mark end
(`tracegc`), each with a stack; a blank line ends a block, and `end tracegc` that of a mark end, which has a stack for each goroutine.
See `tracealloc`, `tracefree` and `tracegc` in `mprof.go` of Go's runtime. Lines that belong to no block, such as the program's own
output, are passed over and counted. A block counts where its first frame is the runtime's, which allocates (or switches to the stack on which it
does) or sweeps: a program that prints such lines itself changes nothing.

A whole block is not read line by line: where it has the program counters of one before, and as many lines, it has its stack, and a frame
that was seen before is told by its place and its program counter. What is not whole, or has other lines in it, is read line by line.
"""

import codecs
import io
import re
from typing import Any, FrozenSet, Iterable, Iterator, Match, NamedTuple, Optional, TextIO, Tuple

ALLOC = re.compile(r"tracealloc\((0x[0-9a-f]+), (0x[0-9a-f]+)(?:, (.*))?\)\s*$")
FREE = re.compile(r"tracefree\((0x[0-9a-f]+), (0x[0-9a-f]+)\)\s*$")
COLLECTION = re.compile(r"tracegc\(\)\s*$")
HEADER = re.compile(r"trace(?:alloc|free|gc)\(")
GOROUTINE = re.compile(r"goroutine (\d+) \[")
MALLOCGC = re.compile(r"runtime\.mallocgc\((0x[0-9a-f]+), (0x[0-9a-f]+\??),")
PROCS = re.compile(r"runtime\.procresize\((0x[0-9a-f]+)\??\)")
PLACE = re.compile(r"\t(.+:\d+)(?: \+0x[0-9a-f]+)?(?: fp=.*)?\s*$")
STATE = re.compile(r"goroutine \d+ \[([^\]]*?)(?:, \d+ minutes)?(, locked to thread)?\]")
EXTENT = re.compile(r" fp=0x([0-9a-f]+) sp=0x([0-9a-f]+)")
CREATED = re.compile(r"created by (.*?)(?: in goroutine \d+)?\s*$")
ELIDED = re.compile(r"\.\.\.(?:additional|\d+) frames elided\.\.\.")

# The fronts of whole blocks, and the program counters of a stack.
WHOLE_ALLOC = re.compile(
    r"tracealloc\((0x[0-9a-f]+), (0x[0-9a-f]+)(?:, ([^\n]*))?\)\n(goroutine) (\d+) \[[^\n]*\nruntime\.mallocgc\((0x[0-9a-f]+), (0x[0-9a-f]+)(\??),"
)
WHOLE_FREE = re.compile(r"tracefree\((0x[0-9a-f]+), (0x[0-9a-f]+)\)\n")
SWEEPS = re.compile(r"goroutine \d+ \[[^\n]*\nruntime\.")
COUNTER = re.compile(r" pc=(0x[0-9a-f]+)")

# Go prints at most 100 frames of a stack, each in two lines.
MOST_LINES = 250
# The largest size that a trace may have, in bytes.
MOST_SIZE = 1 << 40
# Characters that are read as one line; where a line of the log has more, the rest counts as lines of its own.
MOST_LINE = 1 << 16
# Bytes that are read at once.
PIECE = 1 << 20


class Allocation(NamedTuple):
    line: int  # of the log, from 1
    address: int
    slot: int  # bytes, as the allocator rounded the size up
    asked: Optional[int]  # bytes as asked for, where the log has them
    type_name: Optional[str]  # None where the runtime was given no type
    type_address: Optional[int]  # of the type's description in the program
    goroutine: int
    places: Tuple[str, ...]  # FILE:LINE of each frame, the innermost first
    functions: Tuple[str, ...]  # the function of each frame
    procs: Optional[int] = None  # processors, where the stack is that of the runtime's start, which makes them


class Free(NamedTuple):
    line: int
    address: int
    slot: int


class Goroutine(NamedTuple):
    """A goroutine as a mark end finds it."""

    state: str  # what it does or waits for, as the runtime says it
    frames: Tuple[str, ...]  # FUNCTION FILE:LINE, the innermost first; none where it runs on another thread
    created: str  # the function that started it, or nothing
    stack: int  # bytes of its stack that its frames take; 0 where they are not told

    def is_the_runtime_s(self) -> bool:
        """Whether the runtime started it, for work of its own."""
        return self.created.startswith("runtime.") and all(frame.startswith("runtime.") for frame in self.frames)


class Collection(NamedTuple):
    line: int
    waiting: FrozenSet[int] = frozenset()  # the goroutines that wait in `runtime.GC` for this collection and its sweep
    goroutines: Tuple[Goroutine, ...] = ()


class Broken(NamedTuple):
    """A block that is not whole, with what is wrong with it."""

    line: int
    what: str
    starts: bool = False  # whether the runtime's start is in it


class Foreign(NamedTuple):
    """A line that belongs to no block."""

    line: int
    text: str = ""
    is_torn: bool = False  # a block begins in the line


class Lines:
    """A log's lines with their numbers, from pieces of its text. The last line may be put back."""

    def __init__(self, pieces: Iterable[str]) -> None:
        self.pieces = iter(pieces)
        self.text, self.at, self.number = "", 0, 0

    def more(self) -> bool:
        """Takes one piece more. Returns whether there was one."""
        piece = next(self.pieces, None)
        if piece is None:
            return False
        self.text = self.text[self.at :] + piece
        self.at = 0
        return True

    def next(self) -> Any:
        end = self.text.find("\n", self.at) + 1
        while not end and len(self.text) - self.at < MOST_LINE and self.more():
            end = self.text.find("\n", self.at) + 1
        end = min(end or len(self.text), self.at + MOST_LINE)
        line = self.text[self.at : end]
        self.at = end
        self.number += bool(line)
        return line or None

    def put_back(self, line: str) -> None:
        self.at -= len(line)
        self.number -= 1

    def block_end(self) -> Any:
        """Where the blank line of the block stands that begins here, or -1 where none comes soon."""
        end = self.text.find("\n\n", self.at)
        while end < 0 and len(self.text) - self.at < MOST_LINE and self.more():
            end = self.text.find("\n\n", self.at)
        return end

    def pass_block(self, end: int) -> Any:
        """Goes on behind the blank line there. Returns the number of the block's first line."""
        number = self.number + 1
        self.number += self.text.count("\n", self.at, end + 2)
        self.at = end + 2
        return number


def pieces_of(file: Any, wait: Any = lambda: True) -> Iterator[str]:
    """The text of a file in pieces, as they come. `wait` waits for the next one, and answers whether to read on."""
    source: Any = getattr(file, "buffer", file)
    decoder = io.IncrementalNewlineDecoder(codecs.getincrementaldecoder("utf-8")("surrogateescape"), True)
    while wait():
        data = source.read1(PIECE)
        text = decoder.decode(data, not data)
        if text:
            yield text
        if not data:
            return


def function_of(line: str) -> str:
    """The function of a frame's first line, without the arguments."""
    return line.rstrip("\n").rpartition("(")[0]


def place_of(line: str) -> Optional[str]:
    """FILE:LINE of a frame's second line, or nothing."""
    place = line[1:].split(" ", 1)[0].rstrip()
    if ":" in place:
        return place
    found = PLACE.match(line)
    return found.group(1) if found else None


def frame_of(name: str, place: str) -> Optional[Tuple[str, str]]:
    """The place and the function of a frame's two lines; nothing where they are none, or are of the runtime's start, which says more."""
    found = place_of(place) if place.startswith("\t") else None
    if not found or "(" not in name or name.startswith(("\t", "created by ", "runtime.procresize(", "runtime.schedinit(")):
        return None
    return found, function_of(name)


def torn(number: int, header: Match[str]) -> Iterator[Foreign]:
    """What the program wrote into the line in which a block begins."""
    if header.start():
        yield Foreign(number, header.string[: header.start()] + "\n", True)


def of_the_program(number: int, first: str, rest: Iterable[str]) -> Iterator[Foreign]:
    """Lines that look as a block's, and are the program's own."""
    for at, line in enumerate([first, *rest]):
        yield Foreign(number + at, line)


def rest_of_block(lines: Any) -> Any:
    """The lines up to the blank one that ends the block, and whether it came."""
    rest = []
    while True:
        line = lines.next()
        if line is None:
            return rest, False
        if line.isspace():
            return rest, True
        if len(rest) == MOST_LINES or line.startswith("trace") and HEADER.match(line):
            lines.put_back(line)
            return rest, True
        rest.append(line)


class Stack:
    """A stack as its lines come."""

    def __init__(self) -> None:
        self.goroutine: Any = None
        self.asked: Any = None
        self.type_address: Any = None
        self.name: Any = None
        self.procs: Any = None
        self.starts = self.waits = False
        self.places, self.functions = [], []
        self.foreign: Any = []
        self.line: Any = None
        self.state = self.created = ""
        self.top = self.bottom = 0

    def take(self, line: str) -> Any:
        if line.startswith("\t"):
            self.take_place(line)
        elif line.startswith("created by "):
            self.name = None
        elif "(" in line and self.goroutine is not None:
            self.take_function(line)
        else:
            self.take_other(line)

    def take_place(self, line: str) -> Any:
        place = place_of(line)
        if place and self.name is not None:
            self.places.append(place)
            self.functions.append(self.name)
        if not place and not line.startswith("\tgoroutine running on other thread"):
            self.foreign.append(line)
        self.name = None

    def take_function(self, line: str) -> Any:
        if self.asked is None and not self.places:
            found = MALLOCGC.match(line)
            if found:
                self.asked = int(found.group(1), 16)
                address = found.group(2)
                self.type_address = None if address.endswith("?") else int(address, 16)
        if self.name is not None:
            # no place came behind it
            self.foreign.append(self.line)
        self.name, self.line = function_of(line), line
        if self.name == "runtime.procresize":
            found = PROCS.match(line)
            self.procs = found and int(found.group(1), 16)
        self.starts = self.starts or self.name == "runtime.schedinit"
        self.waits = self.waits or self.name == "runtime.GC"

    def take_other(self, line: str) -> Any:
        self.starts = self.starts or line.startswith("runtime.schedinit(")
        found = GOROUTINE.search(line)
        if found and self.goroutine is None:
            self.goroutine = int(found.group(1))
        elif not ELIDED.match(line):
            self.foreign.append(line)

    def take_extent(self, line: str) -> None:
        """Takes in what a line of a mark end's block says of the goroutine beside its frames."""
        if line.startswith("\t"):
            if found := EXTENT.search(line):
                self.top = int(found.group(1), 16)
                self.bottom = self.bottom or int(found.group(2), 16)
        elif found := STATE.match(line):
            self.state = self.state or found.group(1) + (found.group(2) or "")
        elif found := CREATED.match(line):
            self.created = found.group(1)

    def seen(self) -> Any:
        """The goroutine whose stack it is, or nothing."""
        if self.goroutine is None:
            return None
        frames = tuple(f"{name} {place}" for name, place in zip(self.functions, self.places))
        return Goroutine(self.state, frames, self.created, max(self.top - self.bottom, 0))

    def frames(self) -> Any:
        """Places, functions, and the processors that the runtime's start makes."""
        return tuple(self.places), tuple(self.functions), (self.procs or 1) if self.starts else None


def allocation_of(number: int, header: Any, stack: Any) -> Any:
    """The allocation that a block says, or Broken."""
    if stack.goroutine is None:
        return Broken(number, "tracealloc without its goroutine", stack.starts)
    if not stack.places:
        return Broken(number, "tracealloc without a stack", stack.starts)
    address, slot, type_name = header.groups()
    address, slot = int(address, 16), int(slot, 16)
    if max(slot, stack.asked or 0) > MOST_SIZE:
        return Broken(number, "tracealloc of more than 2^40 bytes", stack.starts)
    return Allocation(number, address, slot, stack.asked, type_name, stack.type_address, stack.goroutine, *stack.frames())


class Reader:
    """Goes through a log. Remembers the stacks by their program counters."""

    def __init__(self, pieces: Iterable[str]) -> None:
        self.lines = Lines(pieces)
        self.known = {}  # how many line feeds a stack has, and its frames, by its program counters
        self.seen = {}  # the place and the function of a frame

    def events(self) -> Iterator[Any]:
        lines = self.lines
        while True:
            if lines.at == len(lines.text):
                lines.more()
            if lines.text.startswith("tracealloc(", lines.at):
                event = self.whole_allocation()
                if event is not None:
                    yield event
                    continue
            elif lines.text.startswith("tracefree(", lines.at):
                event = self.whole_free()
                if event is not None:
                    yield event
                    continue
            line = lines.next()
            if line is None:
                return
            yield from self.read_on(line, lines.number)

    def read_on(self, line: str, number: int) -> Iterator[Any]:
        """The events of a block that is read line by line, or of a line of none."""
        if not HEADER.search(line):
            if not line.isspace():
                yield Foreign(number, line)
        elif header := ALLOC.search(line):
            yield from torn(number, header)
            yield from self.allocation_events(number, header)
        elif header := FREE.search(line):
            yield from torn(number, header)
            yield from self.free_events(number, header)
        elif header := COLLECTION.search(line):
            yield from torn(number, header)
            yield from self.collection_events(number, line)
        else:
            yield Broken(number, "a block's first line is not whole")

    def whole_allocation(self) -> Any:
        """The allocation of a whole block with nothing else in it, or nothing."""
        lines = self.lines
        end = lines.block_end()
        header = end >= 0 and WHOLE_ALLOC.match(lines.text, lines.at, end)
        if not header:
            return None
        feeds = lines.text.count("\n", header.end(), end)
        frames = self.frames_of(lines.text, header.start(4), end, feeds)
        if frames is None:
            return None
        address, slot, type_name, _, goroutine, asked, type_address, is_odd = header.groups()
        slot, asked = int(slot, 16), int(asked, 16)
        if slot > MOST_SIZE or asked > MOST_SIZE:
            return None
        number = lines.number + 1
        lines.number += feeds + 4
        lines.at = end + 2
        return Allocation(number, int(address, 16), slot, asked, type_name, None if is_odd else int(type_address, 16), int(goroutine), *frames)

    def frames_of(self, text: str, at: int, end: int, feeds: int) -> Any:
        """The frames of a block with so many line feeds, which its program counters tell where they were seen before; or nothing."""
        counters = tuple(COUNTER.findall(text, at, end))
        known = self.known.get(counters)
        if known is None:
            known = feeds, self.read_frames(text[at:end].split("\n")[1:])
            created = text.rfind("\ncreated by ", at, end)
            end = end if created < 0 else created
            # A frame without a counter was inlined into the next one that has one; behind the last one nothing tells it.
            if counters and known[1] and text.rfind("\n\t", at, end) < text.rfind(" pc=", at, end):
                self.known[counters] = known
        return known[1] if known[0] == feeds else None

    def read_frames(self, lines: Any) -> Any:
        """The frames of a stack's lines, each two; a frame that was seen before is told by its place and its program counter. Nothing where a
        line is of no frame."""
        if len(lines) % 2 or len(lines) >= MOST_LINES:
            return None
        if lines[-2].startswith("created by "):
            del lines[-2:]
        places, functions = [], []
        for name, place in zip(lines[::2], lines[1::2]):
            front, _, rest = place.partition(" fp=")
            key = front + rest[rest.rfind(" pc=") :] if rest else name + place
            frame = self.seen.get(key)
            if frame is None:
                frame = frame_of(name, place)
                if frame is None:
                    return None
                self.seen[key] = frame
            places.append(frame[0])
            functions.append(frame[1])
        return tuple(places), tuple(functions), None

    def allocation_events(self, number: int, header: Any) -> Iterator[Any]:
        rest, is_whole = rest_of_block(self.lines)
        stack = Stack()
        for line in rest:
            stack.take(line)
        if not is_whole:
            yield Broken(number, "the log ends within a tracealloc block", stack.starts)
            return
        if stack.functions and not stack.functions[0].startswith("runtime."):
            yield from of_the_program(number, header.string[header.start() :], rest)
            return
        yield allocation_of(number, header, stack)
        for line in stack.foreign:
            yield Foreign(number, line)

    def whole_free(self) -> Any:
        """The freed object of a whole block with nothing else in it, or nothing. Behind two lines a block has two of each frame."""
        lines = self.lines
        end = lines.block_end()
        text, at = lines.text, lines.at
        header = end >= 0 and WHOLE_FREE.match(text, at, end)
        if not header or text.count("\n", at, end) != 1 + 2 * text.count("\n\t", at, end) or text.find("\ntrace", at, end) >= 0:
            return None
        if text.count("\n", at, end) > MOST_LINES or not SWEEPS.match(text, header.end(), end):
            return None
        return Free(lines.pass_block(end), int(header.group(1), 16), int(header.group(2), 16))

    def free_events(self, number: int, header: Any) -> Iterator[Any]:
        rest, is_whole = rest_of_block(self.lines)
        stack = Stack()
        for line in rest:
            stack.take(line)
        if is_whole and not (stack.functions and stack.functions[0].startswith("runtime.")):
            yield from of_the_program(number, header.string[header.start() :], rest)
            return
        yield Free(number, int(header.group(1), 16), int(header.group(2), 16))
        if not is_whole:
            yield Broken(number, "the log ends within a tracefree block")
        for line in stack.foreign:
            yield Foreign(number, line)

    def collection_events(self, number: int, first: str) -> Iterator[Any]:
        """The block has a part for each goroutine, behind a blank line."""
        waiting, foreign, stack, goroutines = set(), [], Stack(), []
        is_whole = False
        if (line := self.lines.next()) is not None and not line.isspace():
            self.lines.put_back(line)
            yield Foreign(number, first)
            return
        while (line := self.lines.next()) is not None:
            is_whole = line.startswith("end tracegc")
            if not is_whole and line.startswith("trace") and HEADER.match(line):
                self.lines.put_back(line)
                is_whole = True
            if is_whole:
                break
            if line.isspace():
                goroutines.append(stack.seen())
                stack = Stack()
                continue
            stack.take(line)
            stack.take_extent(line)
            if stack.waits:
                waiting.add(stack.goroutine)
            foreign += stack.foreign
            stack.foreign = []
        goroutines.append(stack.seen())
        yield Collection(number, frozenset(waiting), tuple(filter(None, goroutines)))
        if not is_whole:
            yield Broken(number, "the log ends within a tracegc block")
        for line in foreign:
            yield Foreign(number, line)


def events(pieces: Iterable[str]) -> Iterator[Any]:
    """The allocations, frees and collections of a log in order, and what else is in it. `pieces` gives its text, in lines or in any other pieces."""
    return Reader(pieces).events()
