"""Tells from a Go program's file which of its types have pointers, and which Go built it.

A type's description begins with its size and the number of its first bytes that may hold pointers, both of eight bytes
(`_type` in `type.go` of Go's runtime). An allocation block has the address of the description. What built the program stands in its
build information, behind the words `\\xff Go buildinf:` (`exe.go` of Go's `debug/buildinfo`).
"""

import os
import re
import struct
from typing import Any, Optional

from goheap_tools.tool import Unusable

# The versions of Go whose log is read, by their minor numbers.
READ = range(19, 22)
READ_VERSIONS = "go1.19 to go1.21"
BUILD_INFORMATION = b"\xff Go buildinf:"


class Program:
    """The loaded parts of a 64-bit little-endian ELF program that was linked to a fixed address."""

    def __init__(self, path: str) -> None:
        self.name = os.path.basename(path)
        with open(path, "rb") as file:
            self.bytes = file.read()
        if self.bytes[:6] != b"\x7fELF\x02\x01":
            raise Unusable(f"{path}: no 64-bit little-endian ELF program")
        try:
            self.parts = list(self.loaded())
        except (struct.error, OverflowError):
            raise Unusable(f"{path}: the program is cut") from None
        self.known = {}
        self.go_version = self.version()

    def loaded(self) -> Any:
        """Where each loaded part stands when the program runs, where in the file, and how long it is there."""
        offset, = struct.unpack_from("<Q", self.bytes, 32)
        size, count = struct.unpack_from("<HH", self.bytes, 54)
        for number in range(count):
            kind, _, at, address, _, length = struct.unpack_from("<IIQQQQ", self.bytes, offset + number * size)
            if kind == 1:  # PT_LOAD
                yield address, at, length

    def version(self) -> Optional[str]:
        """Which Go built the program, as go1.19.8, or None. Since Go 1.18 its name stands 32 bytes behind the words, behind its length."""
        at = self.bytes.find(BUILD_INFORMATION)
        while at >= 0:
            length = self.bytes[at + 32] if at + 32 < len(self.bytes) else 0
            name = self.bytes[at + 33 : at + 33 + length]
            if at % 16 == 0 and re.fullmatch(rb"(go|devel)[ -~]+", name):
                return name.decode()
            at = self.bytes.find(BUILD_INFORMATION, at + 1)
        return None

    def is_read(self) -> bool:
        """Whether logs of this version are read."""
        found = re.match(r"go1\.(\d+)", self.go_version or "")
        return found is not None and int(found.group(1)) in READ

    def has_pointers(self, address: int) -> Optional[bool]:
        """Whether the type that is described there has pointers, or None where nothing is described there."""
        if address not in self.known:
            self.known[address] = self.look(address)
        return self.known[address]

    def look(self, address: int) -> Optional[bool]:
        for begin, at, length in self.parts:
            if begin <= address and address + 16 <= begin + length and at + address - begin + 16 <= len(self.bytes):
                size, pointers = struct.unpack_from("<QQ", self.bytes, at + address - begin)
                return pointers > 0 if pointers <= size < 1 << 40 else None
        return None
