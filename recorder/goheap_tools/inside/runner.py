"""Programs that the go command runs itself, in `go run` and `go test`: it begins a runner in their place, which asks here how to record them.

They speak through a socket without a file, a line of JSON each way: the runner tells the program's name and asks for the output; then
its process, so that signals can be handed to it; at the end its status.
"""

import contextlib
import json
import os
import secrets
import socket
import struct
import threading
from typing import Callable, Dict, List, NamedTuple, Sequence, TextIO

from goheap_tools import tool
from goheap_tools.inside.process import Running
from goheap_tools.inside.session import Asked, environment

WORD = "--for-go"


class Ended(NamedTuple):
    """A run that ended."""

    program: str
    output: str
    status: int


class Host:
    """Who ran the go command. Answers the runners, each from a thread of its own."""

    def __init__(self, choose: Callable[[str], str], finish: Callable[[str, int], None]):
        """`choose` answers the output for a program's name; `finish` is called with the output and the process when it has ended, while the
        program's file is still there: the go command takes it away behind that."""
        self.choose, self.finish = choose, finish
        self.name = f"goheap-{os.getpid()}-{secrets.token_hex(8)}"
        self.lock = threading.Lock()
        self.processes: Dict[str, int] = {}
        self.ended: List[Ended] = []
        self.faults: List[str] = []
        self.server = socket.socket(socket.AF_UNIX, socket.SOCK_STREAM)
        self.server.bind("\0" + self.name)
        self.server.listen(64)

    def begin(self) -> None:
        """Answers from now on. Called when the go command runs already, since a process with threads is not to be copied."""
        threading.Thread(target=self.accept, daemon=True).start()

    def accept(self) -> None:
        while True:
            try:
                connection, _ = self.server.accept()
            except OSError:
                return
            threading.Thread(target=self.answer, args=(connection,), daemon=True).start()

    def answer(self, connection: socket.socket) -> None:
        """Speaks with a runner, which has to be of the same user: such a socket has no permissions of its own."""
        with connection, connection.makefile("rw") as lines:
            told = lines.readline() if is_ours(connection) else ""
            if not told:
                return
            program = json.loads(told)["program"]
            try:
                with self.lock:
                    output = self.choose(program)
            except (tool.Unusable, OSError) as fault:
                self.faults.append(tool.told(fault))
                send(lines, {"fault": tool.told(fault)})
                return
            send(lines, {"output": output})
            self.follow(lines, program, output)

    def follow(self, lines: TextIO, program: str, output: str) -> None:
        """From the program's beginning to its end."""
        begun = lines.readline()
        if not begun:
            return  # the program could not be begun, which the runner has said
        process = json.loads(begun)["process"]
        with self.lock:
            self.processes[output] = process
        told = json.loads(lines.readline() or '{"status": 255}')
        with self.lock:
            del self.processes[output]
            try:
                self.finish(output, process)
            except (tool.Unusable, OSError) as fault:
                self.faults.append(tool.told(fault))
            self.ended.append(Ended(program, output, told["status"]))
        with contextlib.suppress(BrokenPipeError):
            send(lines, {})

    def running(self) -> List[int]:
        with self.lock:
            return list(self.processes.values())

    def outputs(self) -> List[str]:
        with self.lock:
            return list(self.processes)

    def close(self) -> None:
        self.server.close()


def is_ours(connection: socket.socket) -> bool:
    """Whether who is at the other end is of this user."""
    _, user, _ = struct.unpack("3i", connection.getsockopt(socket.SOL_SOCKET, socket.SO_PEERCRED, struct.calcsize("3i")))
    return user == os.getuid()


def send(lines: TextIO, what: dict) -> None:
    lines.write(json.dumps(what) + "\n")
    lines.flush()


def run_for_go(name: str, asked: Asked, words: Sequence[str]) -> int:
    """The runner: begins the program, tells of it, and ends with its status."""
    with socket.socket(socket.AF_UNIX, socket.SOCK_STREAM) as connection:
        try:
            connection.connect("\0" + name)
        except OSError as fault:
            raise tool.Unusable(f"the recorder that ran the go command is gone: {fault.strerror}") from None
        with connection.makefile("rw") as lines:
            send(lines, {"program": os.path.abspath(words[0])})
            answer = json.loads(lines.readline())
            if "fault" in answer:
                raise tool.Unusable(answer["fault"])
            output = answer["output"]
            running = Running(words, environment(asked, output))
            send(lines, {"process": running.process.pid})
            status = running.wait()
            send(lines, {"status": status})
            lines.readline()  # the file is finished, and may go
    return status
