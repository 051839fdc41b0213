"""What the recorder's tests share."""

import importlib.util
import io
import os
import signal
import sys
import tempfile
import unittest

from goheap_tools import tool

# The folder of the tools' scripts and their data.
HERE = os.path.dirname(os.path.dirname(os.path.dirname(os.path.abspath(__file__))))

# The modules of the tools that are not of the tool's name.
MODULES = {"record": "record_log"}


def data(name):
    with open(os.path.join(HERE, "data", name)) as file:
        return file.read()


def path_of(name):
    return os.path.join(HERE, "data", name)


def run(name, *words, given=""):
    """Runs one of the tools, within this process, which takes less time than a new one. Returns its status, what it wrote and what it said."""
    before = sys.stdin, sys.stdout, sys.stderr
    handlers = {number: signal.getsignal(number) for number in (signal.SIGINT, signal.SIGTERM, signal.SIGPIPE)}
    with tempfile.NamedTemporaryFile("r", errors="surrogateescape") as written:
        sys.stdin = io.TextIOWrapper(io.BufferedReader(io.BytesIO(given.encode(errors="surrogateescape"))))
        sys.stdout, sys.stderr = open(written.name, "w"), io.StringIO()
        try:
            tool.end(name, module(name).main, list(words))
        except SystemExit as ended:
            sys.stdout.close()
            return ended.code, written.read(), sys.stderr.getvalue()
        finally:
            sys.stdin, sys.stdout, sys.stderr = before
            for number, handler in handlers.items():
                signal.signal(number, handler)


def module(name):
    """A tool as a module of its own, which a test may change."""
    spec = importlib.util.find_spec(f"goheap_tools.cli.{MODULES.get(name, name)}")
    loaded = importlib.util.module_from_spec(spec)
    spec.loader.exec_module(loaded)
    return loaded


class Folder(unittest.TestCase):
    """Tests with a folder of their own."""

    def setUp(self):
        self.folder = tempfile.TemporaryDirectory()
        self.addCleanup(self.folder.cleanup)

    def put(self, name, text):
        """Writes a file of this text. Returns its path."""
        path = os.path.join(self.folder.name, name)
        with open(path, "w", errors="surrogateescape") as file:
            file.write(text)
        return path


def block(address, size="0x10", goroutine=1):
    return f"tracealloc({address:#x}, {size})\ngoroutine {goroutine} [running]:\nruntime.mallocgc({size}, 0x0, 0x0)\n\t/go/malloc.go:1\n\n"


def text_of(path):
    with open(path) as file:
        return file.read()


def body(text):
    """The lines of a stacks file behind its first ones, without their types."""
    lines = [line.split("\t") for line in text.splitlines(True) if not line.startswith("# ")]
    return "".join("\t".join(line[:1] + line[2:]) for line in lines)


def rows(text):
    return [line.split() for line in text.splitlines()]
