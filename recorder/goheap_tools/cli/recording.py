"""Makes a trace of the events of a log: one cycle behind it, since who a mark end found alive is known at the next one."""

import argparse
import re
from array import array
from collections import Counter
from typing import Any, Callable, Iterable, Iterator, Optional

from goheap_tools.formats import golog
from goheap_tools.formats.program import Program
from goheap_tools.heap.classes import PAGE

# The limits of traces (docs/trace-format.md).
MOST_BYTES = 67_108_864
MOST_OBJECTS = 1_000_000
MOST_MARK_ENDS = 10_000
MOST_MARKS = 20_000_000
MOST_STACKS = 1_000_000
MOST_PROCS = 64
# Pages of a chunk, and its bytes.
CHUNK_PAGES = 512
CHUNK = CHUNK_PAGES * PAGE
# Chunks of a region: what is taken where less would do, and by version the most that a trace may have.
USUAL_CHUNKS = 128
MOST_CHUNKS = {1: 128, 2: 4096, 3: 4096}
# The goal in pages where none is asked for, which is never passed; a larger region has as many as its pages.
USUAL_GOAL = 65536
VERSIONS = tuple(MOST_CHUNKS)
# Lines of a trace that are kept as one piece.
PIECE = 4096

# Types without pointers, for a log whose program is not at hand: numbers and arrays of them.
PLAIN = re.compile(r"(\[\d+\])*(u?int(8|16|32|64|ptr)?|float(32|64)|complex(64|128)|bool|runtime\.(uint|int|float)\w*)$")


class Full(Exception):
    """A limit of traces is reached."""


class TraceText:
    """A trace as its lines come, within the limits. What does not fit is left out. The second line is made at the end."""

    def __init__(self, header: Callable[[], str], spare: int = 0) -> None:
        self.header, self.spare = header, spare  # gives the first two lines, which may have so many bytes more at the end
        self.parts, self.lines = [], []
        self.bytes: Any = None
        self.sizes = Counter()  # how many objects have the size that is spelled so
        self.objects = self.mark_ends = self.marks = self.behind = 0

    def put(self, text: str) -> None:
        if self.bytes is None:
            self.bytes = len(self.header()) + self.spare + len("end\n")
        if self.bytes + len(text) > MOST_BYTES:
            raise Full("bytes")
        self.bytes += len(text)
        self.lines.append(text)
        if len(self.lines) == PIECE:
            self.parts.append("".join(self.lines))
            self.lines = []

    def allocate(self, line: str) -> None:
        if self.objects == MOST_OBJECTS:
            raise Full("objects")
        self.put(line)
        self.sizes[line.split(" ", 3)[2]] += 1
        self.objects += 1
        self.behind += 1

    def collect(self, distance: int, ids: Any) -> None:
        """A mark end that found these objects alive; ids rise."""
        if self.mark_ends == MOST_MARK_ENDS:
            raise Full("mark ends")
        if self.marks + len(ids) > MOST_MARKS:
            raise Full("marked objects")
        lines = [f"gc {distance}\n"]
        first = last = None
        for one in ids:
            if first is None:
                first = one
            elif one != last + 1:
                lines.append(f"m {first} {last}\n")
                first = one
            last = one
        if first is not None:
            lines.append(f"m {first} {last}\n")
        self.put("".join(lines))
        self.mark_ends += 1
        self.marks += len(ids)
        self.behind = 0

    def pieces(self) -> Iterator[str]:
        """The whole text."""
        yield self.header()
        yield from self.parts
        yield "".join(self.lines)
        yield "end\n"


# The function that copies what a child writes into a buffer of the program's (os/exec).
OF_CHILDREN = "os/exec.(*Cmd).writerDescriptor"


class Recorder:
    """Goes through a log, and makes the trace one cycle behind it: who a mark end found alive is known at the next one."""

    def __init__(self, options: argparse.Namespace, program: Optional[Program], say: Callable[[str], Any]) -> None:
        self.options, self.program, self.say = options, program, say
        self.most_chunks = MOST_CHUNKS[options.version]
        # The numbers of a region that grows have more digits.
        self.trace = TraceText(self.header, len(str(self.most_chunks)) + len(str(self.most_chunks * CHUNK_PAGES)) - len(f"{USUAL_CHUNKS}{USUAL_GOAL}"))
        self.live = {}  # the object at each address, in rising order of objects
        self.old: Any = None  # those of them that the last mark end may have found; None before the first
        self.spool: Any = None  # the allocations since the last mark end
        # Before the trace's first mark end: the objects that live, by number, and how many were allocated before it
        self.early: Any = {} if options.from_mark_end else None
        self.base: Any = None
        self.slots = array("Q")  # of each object
        self.next_object = self.log_mark_ends = 0
        self.stacks = {}  # numbers of the stacks, by their frames and type
        self.frames = []  # the line of each stack
        self.of_children = set()  # the stacks by which the program collects what its children write
        self.children_bytes = 0  # allocated by these
        self.stack_bytes = []  # at each mark end of the trace, what the goroutines' frames take of their stacks
        self.old_stack_bytes = 0  # the same at the last mark end of the log
        self.procs = options.procs
        self.live_bytes = self.peak = 0
        self.is_told = False
        self.waiting, self.swept = frozenset(), False
        self.allocations = self.frees = self.lines = 0
        self.guessed = self.sizes_guessed = self.unknown_frees = self.lost_frees = self.foreign = self.torn = self.broken = 0
        self.first_foreign: Any = None
        self.first_broken: Any = None
        self.started = self.has_run = False
        self.other: Any = None  # the line at which a second program starts
        self.left_out: Any = None  # objects and bytes that the mark end left out would count, and objects behind it
        self.full: Any = None
        self.ended = False
        self.foreign_seen: Any = None  # is given each line of no block

    # What the trace's second line says.

    def chunks(self) -> int:
        """The region: as asked for, or twice what was live at most, from the usual one up to the largest."""
        return self.options.chunks or min(self.most_chunks, max(USUAL_CHUNKS, -(-2 * self.peak // CHUNK)))

    def header(self) -> str:
        options = self.options
        goal = max(USUAL_GOAL, self.chunks() * CHUNK_PAGES) if options.goal is None else options.goal
        return f"goheap {options.version}\nheap {self.chunks()} procs {self.procs or 1} rate {options.rate} seed {options.seed} goal {goal}\n"

    # One object.

    def has_pointers(self, event: golog.Allocation) -> bool:
        if event.type_name is None:
            return False
        if self.program and event.type_address:
            known = self.program.has_pointers(event.type_address)
            if known is not None:
                return known
        self.guessed += 1
        return not PLAIN.match(event.type_name)

    def trimmed(self, place: str) -> str:
        """The place without the first of the prefixes that it has."""
        for prefix in self.options.trim:
            if place.startswith(prefix):
                return place[len(prefix) :]
        return place

    def stack(self, places: Any, functions: Any, type_name: Any) -> int:
        number = self.stacks.get((places, functions, type_name))
        if number is None:
            number = len(self.stacks)
            if number == MOST_STACKS:
                raise Full("stacks")
            self.stacks[places, functions, type_name] = number
            frames = "\t".join(f"{name} {self.trimmed(place)}" for name, place in zip(functions, places))
            if any(name.startswith(OF_CHILDREN) for name in functions):
                self.of_children.add(number)
            self.frames.append(f"{number}\t{type_name or ''}\t{frames}\n")
        return number

    def allocate(self, event: golog.Allocation) -> None:
        if self.full:
            return
        self.allocations += 1
        size = event.asked
        if size is None:
            self.sizes_guessed += 1
            size = event.slot
        kind = "s" if self.has_pointers(event) else "n"
        if self.options.tiny_blocks and kind == "n" and size < event.slot == 16:
            size = 16
        if event.address in self.live:
            # its free is not in the log
            self.lost_frees += 1
            self.forget(event.address)
        try:
            self.add(event, size, kind)
        except Full as full:
            self.full = str(full)
            return
        self.live[event.address] = self.next_object
        self.next_object += 1
        self.slots.append(event.slot)
        self.live_bytes += event.slot
        if self.live_bytes > self.peak:
            self.grow()
        if event.goroutine in self.waiting and "runtime.GC" not in event.functions:
            # `runtime.GC` returned to the program, which it does behind the sweep
            self.swept = True

    def add(self, event: golog.Allocation, size: int, kind: str) -> None:
        proc = event.goroutine % (self.procs or 1)
        if self.early is not None and self.base is None:
            self.early[self.next_object] = proc, size, kind, event.places, event.functions, event.type_name
            return
        if self.next_object - (self.base or 0) == MOST_OBJECTS:
            raise Full("objects")
        stack = self.stack(event.places, event.functions, event.type_name)
        if stack in self.of_children:
            self.children_bytes += size
        line = f"a {proc} {size} {kind} {stack}\n"
        if self.spool is None:
            self.trace.allocate(line)
        else:
            self.spool.append(line)

    def grow(self) -> None:
        """More is live than ever before: says once where it passes the region."""
        self.peak = self.live_bytes
        region = (self.options.chunks or self.most_chunks) * CHUNK
        if self.peak <= region or self.is_told:
            return
        self.is_told = True
        if (self.options.chunks or self.most_chunks) < self.most_chunks:
            what = f"leave --chunks {self.options.chunks} out, or give more, up to {self.most_chunks}"
        elif self.most_chunks < MOST_CHUNKS[VERSIONS[-1]]:
            what = f"--chunks {self.most_chunks} is the most that a trace of version {self.options.version} may have: take --version 2, or run the program with a lower GOGC or less to do"
        else:
            what = f"--chunks {self.most_chunks} is the most that a trace may have, so run the program with a lower GOGC or less to do"
        self.say(f"the objects in use pass the region of {region >> 20} MiB at line {self.lines:,} of the log: some will find no room, and `leaks` counts without them; {what}")

    def forget(self, address: int) -> None:
        """The object at this address is dead."""
        one = self.live.pop(address, None)
        if one is None:
            self.unknown_frees += 1
            return
        self.live_bytes -= self.slots[one]
        if self.old is not None:
            self.old.pop(one, None)
        if self.early is not None:
            self.early.pop(one, None)

    # Mark ends.

    def write_cycle(self) -> None:
        """Writes the last mark end with whom it found alive, and the allocations since."""
        if self.early is not None:
            self.begin()
        self.trace.collect(self.options.distance, list(self.old))
        self.stack_bytes.append(self.old_stack_bytes)
        for line in self.spool:
            self.trace.allocate(line)
        self.spool = []

    def begin(self) -> None:
        """The trace begins with the objects that live at its first mark end; all objects get numbers in the trace."""
        numbers = {one: at for at, one in enumerate(self.early)}
        past = self.base - len(numbers)
        self.live = {address: one - past if one >= self.base else numbers[one] for address, one in self.live.items()}
        self.slots = array("Q", [self.slots[one] for one in numbers]) + self.slots[self.base :]
        self.next_object -= past
        self.old = dict.fromkeys(range(len(numbers)))
        early, self.early, self.base = self.early, None, None
        for proc, size, kind, *stack in early.values():
            self.trace.allocate(f"a {proc} {size} {kind} {self.stack(*stack)}\n")

    def collect(self, event: golog.Collection) -> bool:
        """Returns whether the trace goes on."""
        self.log_mark_ends += 1
        if self.early is not None and self.base is None:
            if self.log_mark_ends < self.options.from_mark_end:
                return True
            self.base = self.next_object
        try:
            if self.old is not None:
                self.write_cycle()
        except Full as full:
            self.full = self.full or str(full)
        if self.full:
            return False
        self.spool = []
        self.old = dict.fromkeys(self.live.values())
        self.waiting, self.swept = event.waiting, False
        self.old_stack_bytes = sum(goroutine.stack for goroutine in event.goroutines)
        return True

    def finish(self) -> None:
        """The log ends. Its last mark end has no other behind it: who it found alive is known only where its sweep is known to be done."""
        if self.ended or self.old is None:
            return
        if not (self.swept or self.options.keep_last):
            self.left_out = len(self.old), sum(self.slots[one] for one in self.old), len(self.spool)
            return
        try:
            self.write_cycle()
        except Full as full:
            self.full = self.full or str(full)

    def is_other(self, event: golog.Allocation) -> bool:
        """Whether a second program starts here, whose objects nothing tells from those of the first. The runtime's start comes before all
        else of a program, and makes one list of processors."""
        if isinstance(event, golog.Allocation):
            starts, is_list = event.procs is not None, event.type_name == "*runtime.p"
        else:
            starts, is_list = isinstance(event, golog.Broken) and event.starts, False
        if not starts:
            self.has_run = self.has_run or isinstance(event, golog.Allocation)
            return False
        if self.has_run or self.started and is_list:
            self.other = event.line
            return True
        self.started = self.started or is_list
        if self.procs is None and is_list:
            self.procs = min(event.procs, MOST_PROCS)
        return False

    def pass_over(self, event: Any) -> None:
        """Counts what is no whole block."""
        if isinstance(event, golog.Broken):
            self.broken += 1
            self.first_broken = self.first_broken or event
        else:
            self.foreign += 1
            self.torn += event.is_torn
            self.first_foreign = self.first_foreign or event
            if self.foreign_seen:
                self.foreign_seen(event.text)

    def run(self, events: Iterable[Any]) -> None:
        for event in events:
            self.lines = event.line
            if isinstance(event, golog.Allocation):
                if self.is_other(event):
                    break
                self.allocate(event)
            elif isinstance(event, golog.Free):
                self.frees += 1
                self.forget(event.address)
            elif not isinstance(event, golog.Collection):
                if self.is_other(event):
                    break
                self.pass_over(event)
            elif not self.collect(event):
                self.ended = True
                break
        self.finish()
