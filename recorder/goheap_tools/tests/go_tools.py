"""The Go toolchains of this machine, and programs that the tests build with them.

All tests of one run share a build cache, in a temporary folder that goes at the end; GOHEAP_TEST_CACHE names one that stays.
"""

import atexit
import functools
import glob
import os
import re
import shutil
import subprocess
import tempfile
import unittest
import unittest.mock
from typing import Dict, List

from goheap_tools.inside import overlay

RECORDER = os.path.dirname(os.path.dirname(os.path.dirname(os.path.abspath(__file__))))
PROGRAMS = os.path.join(os.path.dirname(os.path.abspath(__file__)), "programs")
VERSIONS = ("1.19", "1.21")


@functools.cache
def toolchains() -> Dict[str, str]:
    """The go command of each version that the tests want, where it is on the machine."""
    found = {}
    for go in [*glob.glob("/usr/lib/go-1.*/bin/go"), *glob.glob("/usr/local/go*/bin/go"), shutil.which("go")]:
        if go:
            said = subprocess.run([go, "version"], capture_output=True, text=True, env={**os.environ, "GOTOOLCHAIN": "local"}).stdout
            version = re.search(r"\bgo(1\.\d+)", said)
            if version and version.group(1) in VERSIONS:
                found.setdefault(version.group(1), go)
    return found


@functools.cache
def workplace() -> str:
    """A folder of this run: the build cache, and the programs that were built."""
    folder = tempfile.mkdtemp(prefix="goheap-tests-")
    atexit.register(shutil.rmtree, folder, ignore_errors=True)
    return folder


def environment(**more: str) -> Dict[str, str]:
    """For a go command: nothing from the network, and no cache of the user's."""
    cache = os.environ.get("GOHEAP_TEST_CACHE") or os.path.join(workplace(), "cache")
    ours = {"GOTOOLCHAIN": "local", "GOFLAGS": "-mod=mod", "GOPROXY": "off", "GOCACHE": cache, "XDG_CACHE_HOME": os.path.join(cache, "overlays")}
    return {**os.environ, **ours, **more}


@functools.cache
def built(version: str, program: str, *flags: str) -> str:
    """The path of this program, built by this version."""
    out = os.path.join(workplace(), "-".join([program, version, *(re.sub(r"\W", "", flag) for flag in flags)]))
    subprocess.run([toolchains()[version], "build", *flags, "-o", out, "."], cwd=os.path.join(PROGRAMS, program), env=environment(), check=True, timeout=300)
    return out


@functools.cache
def recorded(version: str, program: str, *flags: str) -> str:
    """The path of this program, built by this version so that it records itself. A program of Go's own is named by its folder."""
    go = toolchains()[version]
    with unittest.mock.patch.dict(os.environ, environment()):
        prepared = overlay.prepare(go)
    out = os.path.join(workplace(), "-".join([os.path.basename(program), version, "recorded", *(re.sub(r"\W", "", flag) for flag in flags)]))
    words = [go, "build", f"-overlay={prepared}", *flags, "-o", out]
    if program.startswith("cmd/"):
        subprocess.run([*words, program], env=environment(), check=True, timeout=600)
    else:
        subprocess.run([*words, "."], cwd=os.path.join(PROGRAMS, program), env=environment(), check=True, timeout=600)
    return out


def missing() -> List[str]:
    return [version for version in VERSIONS if version not in toolchains()]


class GoTest(unittest.TestCase):
    """Tests that need a toolchain. What is missing is told once a class."""

    wanted = 1

    @classmethod
    def setUpClass(cls):
        if missing():
            print(f"{cls.__name__}: skipped for Go {' and '.join(missing())}, not on this machine", flush=True)
        if len(toolchains()) < cls.wanted:
            raise unittest.SkipTest("no Go of 1.19 or 1.21 is on this machine")
