"""Functions, files and lines of a Go program's code, with the calls that were inlined, from the program's own table.

Go programs carry the table that the runtime itself prints stacks from (`.gopclntab`; `symtab.go` and `symtabinl.go` of Go's runtime):
where each function begins, and for each function, by the place in its code, the file, the line and which inlined call the
instruction belongs to. It is there in stripped programs too. Its form is that of Go 1.18 and 1.19, or of 1.20 and 1.21.
"""

import mmap
import struct
from bisect import bisect_right
from typing import Dict, Iterable, Iterator, List, NamedTuple, Optional, Tuple, Union

from goheap_tools.inside.elf import Damaged, Elf

SECTIONS = (".gopclntab", ".data.rel.ro.gopclntab")
INLINE_TREE_INDEX = 2  # PCDATA_InlTreeIndex
INLINE_TREE = 3  # FUNCDATA_InlTree
NO_DATA = 0xFFFFFFFF
WRAPPER = 21  # the identifier of functions that the compiler wrote to call others
FAULT = 18  # sigpanic: its caller did not call it
# Wrappers stay in a stack where these called them: they are how a panic began (`elideWrapperCalling` of Go's runtime).
KEEP_WRAPPERS = (9, 14, FAULT)  # gopanic, panicwrap, sigpanic
# Bytes of an instruction and steps of a table that no function has.
MOST_STEPS = 1 << 24


class Form(NamedTuple):
    """What differs between the two forms."""

    identifier: int  # bytes from a function's beginning to its identifier; the number of its data stands 3 bytes on
    fixed: int  # bytes of a function before its tables
    call: struct.Struct  # an inlined call: identifier, name, place of the call in the caller
    types: int  # which word of the module's data is the address of the types, before that of their end
    go_functions: int  # and which is that of functions' data


FORMS = {
    0xFFFFFFF0: Form(36, 40, struct.Struct("<xxBxxxxxxxxxii"), 35, 38),
    0xFFFFFFF1: Form(40, 44, struct.Struct("<Bxxxiixxxx"), 37, 40),
}


FIXED = 1, 8  # bytes that instructions are aligned to, and of a pointer


def place_of_table(elf: Elf) -> Tuple[int, int]:
    """Where the program has its table of functions when it runs, and where the file has it. The C compiler's linker may put it into a section
    with other things, where its first bytes tell."""
    section = next((elf.sections[name] for name in SECTIONS if name in elf.sections), None)
    if section:
        return section.address, section.offset
    for magic in FORMS:
        wanted = struct.pack("<IxxBB", magic, *FIXED)
        for part in elf.parts:
            at = elf.bytes.find(wanted, part.offset, part.offset + part.size)
            if at >= 0 and at % 8 == part.offset % 8:
                return part.address + at - part.offset, at
    raise Damaged(f"{elf.path}: no table of functions of Go 1.18 to 1.21: was it built by Go, and is it whole?")


class Frame(NamedTuple):
    function: str
    file: str
    line: int

    def __str__(self) -> str:
        return f"{self.function} {self.file}:{self.line}"


class Steps:
    """A value for each place in a function's code, as a table of where it changes."""

    def __init__(self, ends: List[int], values: List[int]):
        self.ends, self.values = ends, values

    def at(self, place: int) -> int:
        found = bisect_right(self.ends, place)
        return self.values[found] if found < len(self.values) else -1


class Function:
    """One function of the program. Its tables are read once, when it is first met."""

    def __init__(self, symbols: "Symbols", offset: int):
        elf, form = symbols.elf, symbols.form
        self.entry, name, _, _, _, files, lines, count, self.unit = elf.numbers("<IiiIIIIII", offset)
        self.name = symbols.name(name)
        self.identifier, data = elf.numbers("<BxxB", offset + form.identifier)
        self.files, self.lines = symbols.steps(files), symbols.steps(lines)
        at = offset + form.fixed
        index = elf.numbers("<I", at + 4 * INLINE_TREE_INDEX)[0] if count > INLINE_TREE_INDEX else 0
        tree = elf.numbers("<I", at + 4 * (count + INLINE_TREE))[0] if data > INLINE_TREE else NO_DATA
        self.inlined = symbols.steps(index) if index and tree != NO_DATA else None
        self.tree = tree


class Symbols:
    """The table of one program. `frames` answers for a return address; `stack` for those of a whole stack."""

    def __init__(self, elf: Elf):
        self.elf = elf
        self.address, self.base = place_of_table(elf)
        magic, small, pointer = elf.numbers("<IxxBB", self.base)
        if magic not in FORMS or (small, pointer) != FIXED:
            raise Damaged(f"{elf.path}: at offset {self.base} the table of functions is not that of Go 1.18 to 1.21 for x86-64")
        self.form = FORMS[magic]
        count, _, _, *offsets = elf.numbers("<QQQQQQQQ", self.base + 8)
        self.names_at, self.units_at, self.files_at, self.tables_at, self.functions_at = (self.base + one for one in offsets)
        self.text = elf.word_at(self.address + 24)
        if count > len(elf.bytes) // 8:
            raise Damaged(f"{elf.path}: at offset {self.base + 8} the table of functions has {count} functions, more than the file has room for")
        words = elf.array(self.functions_at, 2 * count + 1)
        self.entries, self.places = words[::2], words[1::2]
        self.functions: Dict[int, Function] = {}
        self.known: Dict[int, Tuple[Tuple[Frame, int], ...]] = {}
        self.names: Dict[int, str] = {}
        self.calls: Optional[int] = None
        self.module: Optional[int] = None

    def name(self, at: int) -> str:
        """The name of a function, as Go prints it: of what a generic one was made for `[...]` alone."""
        if at not in self.names:
            name = self.elf.text(self.names_at + at, 1 << 16)
            first, last = name.find("["), name.rfind("]")
            self.names[at] = name[:first] + "[...]" + name[last + 1 :] if 0 <= first < last else name
        return self.names[at]

    def file(self, function: Function, place: int) -> str:
        number = function.files.at(place)
        if number < 0:
            return "?"
        at, = self.elf.numbers("<I", self.units_at + 4 * (function.unit + number))
        return "?" if at == NO_DATA else self.elf.text(self.files_at + at)

    def steps(self, at: int) -> Steps:
        """A table of values: pairs of a change of the value and a number of bytes, up to a change of nothing."""
        ends, values = [], []
        place, value, at = 0, -1, self.tables_at + at
        data = self.elf.bytes
        try:
            while len(ends) < MOST_STEPS:
                change, at = self.number(data, at)
                if not change and ends:
                    break
                length, at = self.number(data, at)
                value += (change >> 1) ^ -(change & 1)
                place += length
                ends.append(place)
                values.append(value)
        except IndexError:
            raise Damaged(f"{self.elf.path}: the file ends within the table of lines at offset {at}") from None
        return Steps(ends, values)

    @staticmethod
    def number(data: Union[bytes, mmap.mmap], at: int) -> Tuple[int, int]:
        """A number of seven bits a byte, and where it ends."""
        value = shift = 0
        while True:
            byte = data[at]
            at += 1
            value |= (byte & 0x7F) << shift
            if byte < 0x80:
                return value & 0xFFFFFFFF, at
            shift += 7

    def calls_at(self) -> int:
        """Where in the file the data of functions stands, by which inlined calls are found."""
        if self.calls is None:
            address = self.module_word(self.form.go_functions)
            self.calls = self.elf.offset_of(address)
            if self.calls is None:
                raise Damaged(f"{self.elf.path}: the data of functions is at address {address:#x}, which is not of the file")
        return self.calls

    def module_word(self, number: int) -> int:
        """One of the words of the module's data, as the program has it before it is moved."""
        if self.module is None:
            self.module = self.find_module()
        return self.elf.word_at(self.module + 8 * number)

    def find_module(self) -> int:
        """The address of the module's data, which begins with those of the table and of its names."""
        names = self.address + self.names_at - self.base
        if self.elf.is_anywhere:
            moved = dict(self.elf.relocations())
            found = [address for address, value in moved.items() if value == self.address and moved.get(address + 8) == names]
        else:
            wanted = struct.pack("<QQ", self.address, names)
            found = [part.address + at - part.offset for part in self.elf.parts if (at := self.elf.bytes.find(wanted, part.offset, part.offset + part.size)) >= 0]
        if not found:
            raise Damaged(f"{self.elf.path}: the module's data of Go's runtime was not found, so that nothing tells what was inlined")
        return found[0]

    def function_at(self, address: int) -> Optional[Tuple[Function, int]]:
        """The function that has its code there, and how far into it; nothing where no function of Go's is there."""
        offset = address - self.text
        at = bisect_right(self.entries, offset) - 1
        if offset < 0 or not 0 <= at < len(self.places):
            return None
        function = self.functions.get(at)
        if function is None:
            function = self.functions[at] = Function(self, self.functions_at + self.places[at])
        return function, offset - function.entry

    def entry_of(self, name: str) -> int:
        """Where this function begins. A program that is loaded anywhere is told by it how far it was moved."""
        for at in range(len(self.places)):
            where = self.elf.numbers("<i", self.functions_at + self.places[at] + 4)[0]
            if self.name(where) == name:
                return self.text + self.entries[at]
        raise Damaged(f"{self.elf.path}: it has no function {name}")

    def frames(self, address: int) -> Tuple[Tuple[Frame, int], ...]:
        """The frames of the instruction there, the innermost inlined one first, each with its function's identifier."""
        found = self.known.get(address)
        if found is None:
            found = self.known[address] = tuple(self.read_frames(address))
        return found

    def read_frames(self, address: int) -> Iterator[Tuple[Frame, int]]:
        found = self.function_at(address)
        if found is None:
            return
        function, place = found
        inlined = function.inlined
        while inlined and (index := inlined.at(place)) >= 0:
            call = self.form.call
            identifier, name, parent = call.unpack(self.elf.slice(self.calls_at() + function.tree + index * call.size, call.size))
            yield Frame(self.name(name), self.file(function, place), function.lines.at(place)), identifier
            if parent == place:
                return
            place = parent
        yield Frame(function.name, self.file(function, place), function.lines.at(place)), function.identifier

    def stack(self, addresses: Iterable[int]) -> Tuple[Frame, ...]:
        """The frames of a stack of return addresses, the innermost first, without the wrappers that the compiler wrote, as Go shows them. A
        call ends before its return address; a fault is at it."""
        shown, last = [], None
        for address in addresses:
            for frame, identifier in self.frames(address if last == FAULT else address - 1):
                if identifier != WRAPPER or last in KEEP_WRAPPERS:
                    shown.append(frame)
                last = identifier
        return tuple(shown)
