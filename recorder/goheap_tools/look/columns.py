"""Columns of numbers as a page carries them: as small integers or differences, each column compressed, in base64."""

import base64
import json
import sys
import zlib
from array import array
from itertools import accumulate, chain
from operator import sub
from typing import Any, Dict, Iterable, List

# The types of a column's numbers by their widths in bytes, as `array` names them.
UNSIGNED, SIGNED = ((1, "B"), (2, "H"), (4, "I")), ((1, "b"), (2, "h"), (4, "i"))
# Exact whole numbers above 32 bits, as the page's own numbers are; and texts.
FLOAT, TEXTS = "d", "t"
SAFE = 1 << 53


def packed(numbers: List[int]) -> array:
    """The numbers in the narrowest type that holds them all."""
    low, high = min(numbers, default=0), max(numbers, default=0)
    for width, code in SIGNED if low < 0 else UNSIGNED:
        bits = 8 * width - (low < 0)
        if high < 1 << bits and low >= -(1 << bits):
            return array(code, numbers)
    if max(high, -low) >= SAFE:
        raise OverflowError(high)
    return array(FLOAT, numbers)


def differences(numbers: List[int]) -> List[int]:
    """The first number, and of each other one how much it is above the one before."""
    return list(chain(numbers[:1], map(sub, numbers[1:], numbers)))


def swapped(column: array) -> array:
    """The column with its least byte first, as the page reads it."""
    if sys.byteorder == "big":
        column.byteswap()
    return column


class Columns:
    """Named columns: of each its type, its length, whether it has differences, and its bytes as text."""

    def __init__(self) -> None:
        self.table: Dict[str, List[Any]] = {}

    def put(self, name: str, code: str, length: int, rising: bool, data: bytes) -> None:
        self.table[name] = [code, length, int(rising), base64.b64encode(zlib.compress(data)).decode("ascii")]

    def add(self, name: str, numbers: Iterable[int], rising: bool = False) -> None:
        """Adds a column; of one that mostly rises by little the differences are kept."""
        whole = list(numbers)
        column = packed(differences(whole) if rising else whole)
        code, length = column.typecode, len(column)
        self.put(name, code, length, rising, swapped(column).tobytes())

    def add_texts(self, name: str, texts: List[str]) -> None:
        """Adds a column of texts."""
        self.put(name, TEXTS, len(texts), False, json.dumps(texts, ensure_ascii=False, separators=(",", ":")).encode("utf-8", "replace"))

    def size(self) -> int:
        """How many characters they take."""
        return sum(len(column[-1]) for column in self.table.values())

    def numbers(self, name: str) -> List[int]:
        """A column as it was added."""
        code, _, rising, text = self.table[name]
        column = array(code)
        column.frombytes(zlib.decompress(base64.b64decode(text)))
        whole = list(map(int, swapped(column)))
        return list(accumulate(whole)) if rising else whole
