"""Opens a log that may be packed by gzip or xz, by its first bytes."""

import gzip
import io
import lzma
import sys
import zlib
from typing import Any, BinaryIO, Dict, cast

from goheap_tools import tool
from goheap_tools.tool import Unusable

OPENERS: Dict[bytes, Any] = {b"\x1f\x8b": gzip.open, b"\xfd7zXZ\0": lzma.open}


class Unpacked(io.BufferedIOBase):
    """What a packed file has; where it is cut or damaged it says so."""

    def __init__(self, packed: BinaryIO, opener: Any, name: str) -> None:
        self.packed, self.file, self.name = packed, opener(packed, "rb"), name

    def readable(self) -> bool:
        return True

    def read1(self, size: int = -1) -> bytes:
        try:
            return self.file.read1(size)
        except (EOFError, lzma.LZMAError, gzip.BadGzipFile, zlib.error):
            raise Unusable(f"{self.name}: the packed file is cut or damaged") from None

    def close(self) -> None:
        self.file.close()
        self.packed.close()
        super().close()


def log_in(path: str) -> BinaryIO:
    """The bytes of the log; - is standard input."""
    file = tool.stream(sys.stdin, "standard input").buffer if path == "-" else open(path, "rb")
    front = file.peek(6)
    for magic, opener in OPENERS.items():
        if front.startswith(magic):
            return cast(BinaryIO, Unpacked(file, opener, tool.named(path)))
    return file
