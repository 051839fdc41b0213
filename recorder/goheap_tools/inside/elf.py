"""The file of a Go program: a 64-bit little-endian ELF file, its sections, its loaded parts and its symbols.

Each number of the file is held against the file's size before it is used, so that a damaged one is refused by its offset.
"""

import mmap
import os
import struct
from array import array
from typing import Dict, Iterator, NamedTuple, Optional, Tuple

from goheap_tools import tool

RELATIVE = 8  # R_X86_64_RELATIVE
LOAD = 1  # PT_LOAD
NO_BITS = 8  # SHT_NOBITS
SYMBOL = struct.Struct("<IBBHQQ")
RELOCATION = struct.Struct("<QQq")


class Damaged(tool.Unusable):
    """What was read is not as it should be; the text says what, and where."""


class Part(NamedTuple):
    """A section, or a loaded part."""

    name: str
    address: int  # where it stands when the program runs (less the base, for a program that is loaded anywhere)
    offset: int  # in the file
    size: int  # bytes in the file


class Elf:
    """The file is mapped and not read: a table is looked at where it is asked for."""

    def __init__(self, path: str):
        self.path = path
        with open(path, "rb") as file:
            size = os.fstat(file.fileno()).st_size
            if not size:
                raise Damaged(f"{path}: no 64-bit little-endian ELF program: it is empty")
            self.bytes = mmap.mmap(file.fileno(), 0, access=mmap.ACCESS_READ)
        if self.bytes[:6] != b"\x7fELF\x02\x01":
            raise Damaged(f"{path}: no 64-bit little-endian ELF program")
        self.is_anywhere = self.numbers("<H", 16)[0] == 3  # ET_DYN: the loader chooses its base
        self.parts = list(self.read_parts())
        self.sections = {part.name: part for part in self.read_sections()}
        self.moved: Optional[Dict[int, int]] = None

    def close(self) -> None:
        self.bytes.close()

    def numbers(self, form: str, offset: int) -> tuple:
        """The numbers of this form that stand at this offset of the file."""
        try:
            return struct.unpack_from(form, self.bytes, offset)
        except (struct.error, OverflowError):
            raise Damaged(f"{self.path}: the file is cut, or wrong: nothing stands at offset {offset} of it") from None

    def slice(self, offset: int, size: int) -> bytes:
        if offset < 0 or size < 0 or offset + size > len(self.bytes):
            raise Damaged(f"{self.path}: the file is cut, or wrong: no {size} bytes stand at offset {offset} of it")
        return self.bytes[offset : offset + size]

    def read_parts(self) -> Iterator[Part]:
        offset, = self.numbers("<Q", 32)
        size, count = self.numbers("<HH", 54)
        for number in range(count):
            kind, _, at, address, _, length = self.numbers("<IIQQQQ", offset + number * size)
            if kind == LOAD:
                yield Part("", address, at, length)

    def read_sections(self) -> Iterator[Part]:
        offset, = self.numbers("<Q", 40)
        size, count, names = self.numbers("<HHH", 58)
        if not offset or not count:
            return
        found = [self.numbers("<IIQQQQ", offset + number * size) for number in range(count)]
        table = found[names][4] if names < count else 0
        for name, kind, _, address, at, length in found:
            yield Part(self.text(table + name), address, at, 0 if kind == NO_BITS else length)

    def text(self, offset: int, most: int = 4096) -> str:
        """The text that ends in a zero byte there."""
        end = self.bytes.find(b"\0", offset, offset + most) if 0 <= offset < len(self.bytes) else -1
        if end < 0:
            raise Damaged(f"{self.path}: no name stands at offset {offset} of the file")
        return self.bytes[offset:end].decode("utf-8", "surrogateescape")

    def offset_of(self, address: int, size: int = 1) -> Optional[int]:
        """Where in the file stands what the program has at this address, or nothing."""
        for part in self.parts:
            if part.address <= address and address + size <= part.address + part.size:
                return part.offset + address - part.address
        return None

    def word_at(self, address: int) -> int:
        """The word that the program has at this address when it starts, less its base: the loader writes some of a program that it loads anywhere."""
        if self.is_anywhere:
            if self.moved is None:
                self.moved = dict(self.relocations())
            if address in self.moved:
                return self.moved[address]
        offset = self.offset_of(address, 8)
        if offset is None:
            raise Damaged(f"{self.path}: nothing of the file stands at address {address:#x} of the program")
        return self.numbers("<Q", offset)[0]

    def relocations(self) -> Iterator[Tuple[int, int]]:
        """Each word that holds an address, and that address."""
        section = self.sections.get(".rela.dyn") or self.sections.get(".rela")
        if section:
            whole = section.size - section.size % RELOCATION.size
            for address, kind, addend in RELOCATION.iter_unpack(self.slice(section.offset, whole)):
                if kind & 0xFFFFFFFF == RELATIVE:
                    yield address, addend

    def symbol(self, name: str) -> Optional[int]:
        """The address of this symbol, or nothing: a program may have been stripped of its symbols."""
        symbols, names = self.sections.get(".symtab"), self.sections.get(".strtab")
        if not symbols or not names:
            return None
        at = self.slice(names.offset, names.size).find(b"\0" + name.encode() + b"\0") + 1
        if not at:
            return None
        whole = symbols.size - symbols.size % SYMBOL.size
        return next((address for where, _, _, _, address, _ in SYMBOL.iter_unpack(self.slice(symbols.offset, whole)) if where == at), None)

    def array(self, offset: int, count: int) -> array:
        """So many numbers of four bytes."""
        found = array("I")
        found.frombytes(self.slice(offset, 4 * count))
        return found
