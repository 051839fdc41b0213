"""Go's own page allocator and page caches, called many times by a test that an overlay adds to package runtime, and what they answered as journals.

Nothing of Go's text is kept here: the package's own exports for tests are those of the user's Go, and its other tests are left out by the overlay.
"""

import json
import os
import re
import subprocess
from typing import Dict, Iterator, NamedTuple

from goheap_tools.tests.go_tools import PROGRAMS, environment

TEST = os.path.join(PROGRAMS, "gopages", "pages_test.go.txt")
NAME = "goheap_pages_test.go"
OUTER = re.compile(r"^package runtime_test\b", re.M)


class Region(NamedTuple):
    """What was asked of a region: how many calls of each kind, and the trace and the report."""

    chunks: int
    calls: Dict[str, int]
    lines: int
    trace: str
    report: str


def overlay_for(go: str, folder: str) -> str:
    """The path of an overlay that adds our test to package runtime, and leaves out the other tests that are not of the package itself."""
    root = subprocess.run([go, "env", "GOROOT"], capture_output=True, text=True, check=True, env=environment()).stdout.strip()
    runtime = os.path.join(root, "src", "runtime")
    replace = {os.path.join(runtime, NAME): TEST}
    for name in os.listdir(runtime):
        if name.endswith("_test.go"):
            with open(os.path.join(runtime, name), encoding="utf-8") as file:
                if OUTER.search(file.read()):
                    replace[os.path.join(runtime, name)] = ""
    path = os.path.join(folder, "overlay.json")
    with open(path, "w") as file:
        json.dump({"Replace": replace}, file)
    return path


def regions(go: str, folder: str, calls: int) -> Iterator[Region]:
    """Calls each region's allocator about so many times, and what is written."""
    words = [go, "test", "-vet=off", "-count=1", f"-overlay={overlay_for(go, folder)}", "-run", "^TestGoheapPages$", "-v", "-timeout", "20m", "runtime"]
    ran = subprocess.run(words, capture_output=True, text=True, cwd=folder, env=environment(GOHEAP_CALLS=str(calls), GOHEAP_FOLDER=folder))
    if ran.returncode:
        raise AssertionError(ran.stdout[-2000:] + ran.stderr[-2000:])
    for line in ran.stdout.splitlines():
        words = line.split()
        if words[:1] == ["region"]:
            numbers = dict(zip(words[::2], map(int, words[1::2])))
            chunks, lines = numbers.pop("region"), numbers.pop("lines")
            trace = f"goheap 4\nheap {chunks} procs 4 rate 0 seed 1 goal {chunks * 512}\nend\n"
            yield Region(chunks, numbers, lines, trace, os.path.join(folder, f"{chunks}.report"))
