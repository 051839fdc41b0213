#!/usr/bin/env python3
"""Makes out/goheap-VERSION-linux-x86_64.tar.gz from a tree that is built and that passed the gate. Called by `./dev release`.

In it are the program, the launcher, recorder/, examples/, docs/, the man page and the completions, CHANGELOG.md, VERSION, and RELEASE: the
version, the commit, the toolchain and the last line of the gate, and the checksum of each file (`sha256sum -c RELEASE`). Of one
commit and one program it has the same bytes each time. Unpacked it needs no toolchain; recorder/ wants a Python, and a Go to record with.
"""
import gzip
import hashlib
import io
import os
import re
import subprocess
import sys
import tarfile

ROOT = os.path.dirname(os.path.dirname(os.path.abspath(__file__)))
PROGRAM = "crates/goheap/out/goheap"
# `./dev test` writes it: `commit`, `toolchain`, `changes`, and all that the gate said.
GATE = "out/gate.log"
# What goes along as it is, and the rest by the places that systems look in.
WHOLE = ("README.md", "CHANGELOG.md", "goheap", "launcher/streams.sh", "launcher/words.sh", "launcher/words.txt", "docs", "examples", "recorder")
PLACED = {
    PROGRAM: "libexec/goheap",
    "launcher/pages/goheap.1": "share/man/man1/goheap.1",
    "launcher/pages/goheap.bash": "share/bash-completion/completions/goheap",
    "launcher/pages/_goheap": "share/zsh/site-functions/_goheap",
}
IS_TEST = re.compile(r"recorder/(.*/)?(tests?(/|$)|test_|testing\.py$)")


class Unfit(Exception):
    """The tree is not to be released; the text says why."""


def said_by(*words: str) -> str:
    return subprocess.run(words, cwd=ROOT, stdout=subprocess.PIPE, text=True, check=True).stdout


def facts() -> dict[str, str]:
    """What `goheap --version` says: version, commit, toolchain and what runs."""
    first, *rest = said_by("./goheap", "--version").splitlines()
    found = {"version": first.removeprefix("goheap "), **dict(line.split(": ", 1) for line in rest)}
    if said_by("git", "status", "--porcelain"):
        raise Unfit("there are changes that are not committed")
    if found.pop("what runs") != "the proved program":
        raise Unfit("the program is not built, or older than a source: ./goheap --build")
    return found


def gate_line(found: dict[str, str]) -> str:
    """The last line of the gate, which must have passed on this commit with this toolchain."""
    try:
        with open(f"{ROOT}/{GATE}", encoding="utf-8", errors="replace") as file:
            lines = file.read().splitlines()
    except OSError:
        raise Unfit("no gate was run here: ./dev test") from None
    wanted = [f"commit: {found['commit']}", f"toolchain: {found['toolchain']}", "changes: 0"]
    if lines[:3] != wanted:
        raise Unfit(f"the gate was run on something else ({', '.join(lines[:3])}): ./dev test")
    if not re.fullmatch(r"[1-9][0-9]* passed, 0 failed", lines[-1]):
        raise Unfit(f"the gate did not pass: its last line is {lines[-1]!r}")
    return lines[-1]


def files() -> dict[str, str]:
    """The files of the release, by their names in it, each with its path in the tree."""
    tracked = [name for name in said_by("git", "ls-files", *WHOLE).splitlines() if not IS_TEST.match(name)]
    return {**{name: name for name in tracked}, **{place: name for name, place in PLACED.items()}}


def entry(name: str, content: bytes, is_program: bool, time: int) -> tarfile.TarInfo:
    info = tarfile.TarInfo(name)
    info.size, info.mtime, info.mode = len(content), time, 0o755 if is_program else 0o644
    return info


def contents(found: dict[str, str]) -> dict[str, tuple[bytes, bool]]:
    """Each file of the release by its name: its bytes, and whether it is a program."""
    kept = {"VERSION": (f"{found['version']}\n".encode(), False)}
    for name, path in files().items():
        with open(f"{ROOT}/{path}", "rb") as file:
            kept[name] = file.read(), os.access(f"{ROOT}/{path}", os.X_OK)
    told = "".join(f"# {name}: {text}\n" for name, text in found.items())
    sums = "".join(f"{hashlib.sha256(content).hexdigest()}  {name}\n" for name, (content, _) in sorted(kept.items()))
    return {**kept, "RELEASE": ((told + sums).encode(), False)}


def make() -> str:
    """Makes the release, and returns its path."""
    found = facts()
    found["gate"] = gate_line(found)
    folder = f"goheap-{found['version']}-linux-x86_64"
    target, time = f"out/{folder}.tar.gz", int(said_by("git", "show", "-s", "--format=%ct", "HEAD"))
    packed = io.BytesIO()
    with gzip.GzipFile(filename="", mode="wb", fileobj=packed, mtime=time) as zipped, tarfile.open(fileobj=zipped, mode="w") as tar:
        for name, (content, is_program) in sorted(contents(found).items()):
            tar.addfile(entry(f"{folder}/{name}", content, is_program, time), io.BytesIO(content))
    with open(f"{ROOT}/{target}.part", "wb") as file:
        file.write(packed.getvalue())
    os.replace(f"{ROOT}/{target}.part", f"{ROOT}/{target}")
    return target


if __name__ == "__main__":
    try:
        print(make())
    except (Unfit, OSError, subprocess.CalledProcessError) as error:
        print(f"dev release: {error}", file=sys.stderr)
        sys.exit(1)
