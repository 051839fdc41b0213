"""What a file is that was named to be recorded, and what helps where it is none of that."""

import enum
import os
from typing import Optional

from goheap_tools import tool
from goheap_tools.formats.packed import OPENERS
from goheap_tools.formats.program import BUILD_INFORMATION
from goheap_tools.inside.elf import Damaged, Elf
from goheap_tools.inside.overlay import MARKER
from goheap_tools.inside.session import MAGIC

# How else a file may be packed than logs are that are read.
PACKED = {b"(\xb5/\xfd": "zstd", b"BZh": "bzip2", b"PK\x03\x04": "zip"}


class Kind(enum.Enum):
    ITSELF = "a Go program that records itself"
    GO = "a Go program"
    ELF = "a program, but not of Go"
    SCRIPT = "a script"
    RECORDING = "a recording"
    LOG = "a log, packed or not"
    PACKED = "packed as no log is read"
    OTHER = "none of these"


def kind_of(path: str) -> Kind:
    with open(path, "rb") as file:
        head = file.read(16)
    if head.startswith(b"\x7fELF"):
        return program_kind(path)
    if head.startswith(b"#!"):
        return Kind.SCRIPT
    if head.startswith(MAGIC):
        return Kind.RECORDING
    if any(head.startswith(front) for front in (*OPENERS, b"tracealloc(")):
        return Kind.LOG
    return Kind.PACKED if any(head.startswith(front) for front in PACKED) else Kind.OTHER


def program_kind(path: str) -> Kind:
    try:
        elf = Elf(path)
    except Damaged:
        return Kind.ELF
    try:
        if elf.bytes.find(MARKER) >= 0:
            return Kind.ITSELF
        return Kind.GO if ".note.go.buildid" in elf.sections or elf.bytes.find(BUILD_INFORMATION) >= 0 else Kind.ELF
    finally:
        elf.close()


def refusal(path: str, kind: Kind) -> Optional[str]:
    """What to say of a file that is neither a log nor a program to record, or nothing."""
    if kind is Kind.RECORDING:
        return f"{path} is a recording: `facts {path}` shows what is in it"
    if kind is Kind.ELF:
        return f"{path} is no Go program, so that there is nothing of Go's heap in it: name the Go program itself"
    if kind is Kind.PACKED:
        return f"{path} is packed, and not by gzip or xz, by which logs are read: unpack it first"
    if kind is Kind.OTHER:
        with open(path, encoding="utf-8", errors="replace") as file:
            found = tool.kind_of(file.readline(4096))
        if found in ("a trace", "a report", "a stacks file", "a heap profile"):
            helps = {
                "a trace": f"`goheap run < {path}` makes its report, and `leaks --trace {path} --stacks stacks` a table",
                "a report": f"`leaks {path} --stacks stacks` makes a table of it",
                "a stacks file": "it goes to the other tools, behind --stacks",
                "a heap profile": f"`pprof stacks < {path}` gives it names",
            }
            return f"{path} is {found}, and not a program or its log: {helps[found]}"
    return None
