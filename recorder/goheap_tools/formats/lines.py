"""Reads a text of goheap in blocks, as runs of lines of one kind."""

import contextlib
import io
import re
import sys
from typing import BinaryIO, ContextManager, Iterable, Iterator, Mapping, Tuple

from goheap_tools import progress, tool
from goheap_tools.tool import Unusable

SIZE = 1 << 17  # bytes read at a time


def opened(path: str) -> ContextManager[BinaryIO]:
    """The bytes of the file; - is standard input."""
    if path == "-":
        return contextlib.nullcontext(tool.stream(sys.stdin, "standard input").buffer)
    return open(path, "rb")


def joined(lines: Iterable[str]) -> BinaryIO:
    """The bytes of a text that is given in lines."""
    return io.BytesIO("".join(lines).encode("utf-8", "surrogateescape"))


def is_kind(name: str, front: bytes, kind: str) -> None:
    """Refuses a text that begins as one of another kind does."""
    found = tool.kind_of(front.decode("latin-1"))
    if found not in (None, kind):
        how = tool.MAKING.get((kind, str(found)), "")
        raise Unusable(f"{name}: this is {found}, and no {kind[2:]}{how}")


def blocks(file: BinaryIO) -> Iterator[bytes]:
    """What is left of the file in blocks of whole lines; the last may lack its line feed."""
    rest = b""
    while data := file.read(SIZE):
        cut = data.rfind(b"\n") + 1
        if cut or len(rest) > SIZE:
            yield rest + data[:cut]
            rest = b""
        rest += data[cut:]
    if rest:
        yield rest


def runs(file: BinaryIO, name: str, line: int, kind: str, forms: Mapping[str, bytes]) -> Iterator[Tuple[str, bytes, int]]:
    """The rest of a text up to its line `end` as runs of lines with one first letter: the letter, the lines, the first one's number. `line` is
    the number of the first line that is left, and `forms` has the form of a run by its letter."""
    progress.stage(f"reading {name}")
    compiled = {ord(letter): (letter, re.compile(form)) for letter, form in forms.items()}
    ended = False
    for block in blocks(file):
        at = 0
        while at < len(block):
            if ended:
                raise Unusable(f"{name}: line {line}: there are lines behind the end")
            letter, form = compiled.get(block[at], ("", None))
            found = form and form.match(block, at)
            if not found:
                is_kind(name, block[:100] if line == 1 else b"", f"a {kind}")
                raise Unusable(f"{name}: line {line}: no line of a {kind}")
            run = found.group()
            yield letter, run, line
            ended = letter == "e"
            line += run.count(b"\n")
            at = found.end()
    if not ended:
        raise Unusable(f"{name}: the {kind} has no end")
