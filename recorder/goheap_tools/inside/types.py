"""Names of types from a Go program's file, by the address of the type's description.

A description (`_type` in `type.go` of Go's runtime) begins with the type's size and how many of its first bytes may hold pointers, 8 bytes
each; at byte 20 stand its flags, at byte 40 where its name is, from the beginning of all types. A name is a byte of flags, its length of
seven bits a byte, and its text. Types that a program makes while it runs are in its heap, and in no file.
"""

from typing import Dict, NamedTuple, Optional

from goheap_tools.inside.elf import Damaged
from goheap_tools.inside.symbols import Symbols

EXTRA_STAR = 2  # the name has a * before it that is not the type's
MOST_NAME = 1 << 16


class Type(NamedTuple):
    name: str
    size: int  # bytes
    pointers: int  # of its first bytes may hold pointers


class Types:
    """The types of one program, each read once."""

    def __init__(self, symbols: Symbols):
        self.elf = symbols.elf
        self.begin, self.end = (symbols.module_word(symbols.form.types + one) for one in (0, 1))
        self.known: Dict[int, Optional[Type]] = {}

    def at(self, address: int) -> Optional[Type]:
        """The type that is described there, or nothing where the file has none there."""
        if address not in self.known:
            self.known[address] = self.read(address) if self.begin <= address < self.end else None
        return self.known[address]

    def read(self, address: int) -> Type:
        offset = self.elf.offset_of(address, 48)
        if offset is None:
            raise Damaged(f"{self.elf.path}: no type is described at address {address:#x} of the program")
        size, pointers, _, flags = self.elf.numbers("<QQIB", offset)
        where = self.elf.offset_of(self.begin + self.elf.numbers("<i", offset + 40)[0], 2)
        if where is None:
            raise Damaged(f"{self.elf.path}: the type at offset {offset} has its name outside of the file")
        try:
            length, where = Symbols.number(self.elf.bytes, where + 1)
        except IndexError:
            length = MOST_NAME
        if length >= MOST_NAME:
            raise Damaged(f"{self.elf.path}: the name at offset {where} has {length} bytes, more than a name has")
        name = self.elf.slice(where, length).decode("utf-8", "replace")
        return Type(name[1:] if flags & EXTRA_STAR else name, size, pointers)
