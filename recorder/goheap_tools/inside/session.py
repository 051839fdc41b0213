"""One run of a program that records itself: what the runtime is told, which file it writes, and who else might be writing it."""

import os
import struct
from typing import Dict, NamedTuple, Optional

from goheap_tools import tool
from goheap_tools.inside.recording import CHUNK_BYTES

VARIABLE = "GOHEAP_RECORD"
MAGIC = b"goheaprc"
DEFAULT_SIZE = 8 << 30
LEAST_SIZE = 4 * CHUNK_BYTES
MOST_SIZE = 1 << 44
MOST_EVERY = 1 << 31
PROCESS = "%p"  # in a path: the runtime puts the process in its place


class Asked(NamedTuple):
    """How a run is to be recorded."""

    size: int = DEFAULT_SIZE  # bytes that the file may have
    begin: int = 0  # the mark end at which it begins; 0: the program's start
    signal: bool = False  # SIGUSR1 starts and stops it
    every: int = 1  # the stacks of each so many-th object
    children: bool = False  # each process that the program starts has a file of its own


def environment(asked: Asked, output: str) -> Dict[str, str]:
    """The environment of a program that records itself into this file."""
    told = {
        VARIABLE: os.path.abspath(output),
        f"{VARIABLE}_SIZE": str(asked.size),
        f"{VARIABLE}_FROM": "signal" if asked.signal else str(asked.begin),
        f"{VARIABLE}_EVERY": str(asked.every),
    }
    return {**{name: value for name, value in os.environ.items() if not name.startswith(VARIABLE)}, **told}


def output_for(program: str, folder: str, asked: Asked, named: Optional[str] = None) -> str:
    """The file for a run of this program: SERVER.heap in this folder, or the one that was named; with the process in it where each has its own."""
    output = os.path.join(folder, named or f"{os.path.basename(program)}.heap")
    if asked.children:
        if PROCESS in output and PROCESS not in os.path.basename(output) or PROCESS in folder:
            raise tool.Unusable(f"{output}: no folder may have {PROCESS} in its name here: the process is put in its place")
        if PROCESS not in output:
            front, end = os.path.splitext(output)
            output = f"{front}.{PROCESS}{end}"
    elif PROCESS in os.path.abspath(output):
        raise tool.Unusable(f"{output}: {PROCESS} in a name stands for the process, and is for --keep-children")
    return output


def writer_of(path: str) -> Optional[int]:
    """The process that writes this recording now, or nothing: the one that its header names, where that has the file mapped."""
    try:
        with open(path, "rb") as file:
            head = file.read(32)
            wanted = os.fstat(file.fileno()).st_ino
        if len(head) < 32 or head[:8] != MAGIC:
            return None
        process, = struct.unpack_from("<Q", head, 24)
        with open(f"/proc/{process}/maps", errors="surrogateescape") as maps:
            mapped = any(line.split(None, 5)[4] == str(wanted) for line in maps)
        return process if mapped else None
    except (OSError, IndexError):
        return None


def make_way(path: str) -> None:
    """The runtime writes a new file alone, so an earlier recording of this name goes. Refuses to take anything else away."""
    folder = os.path.dirname(os.path.abspath(path))
    if not os.path.isdir(folder):
        raise tool.Unusable(f"{folder}: no such folder")
    if not os.access(folder, os.W_OK):
        raise tool.Unusable(f"{folder}: no file may be made there")
    if not os.path.lexists(path):
        return
    if not os.path.isfile(path) or os.path.islink(path):
        raise tool.Unusable(f"{path} is there, and is no file that a recording could take the place of: name another one")
    with open(path, "rb") as file:
        head = file.read(8)
    if head not in (MAGIC, b"", bytes(8)):
        raise tool.Unusable(f"{path} is there, and is not a recording: name another file")
    if process := writer_of(path):
        raise tool.Unusable(f"{path} is being written by process {process}: name another file")
    os.unlink(path)
