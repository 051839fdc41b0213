"""Makes the overlay of package runtime with which a Go program records itself.

Nothing of Go's own text is kept here: the user's own `$(go env GOROOT)/src/runtime` is read, our calls are put into
copies of a few of its files, and `go build -overlay` takes the copies for the files.
"""

from __future__ import annotations

import hashlib
import json
import os
import re
import subprocess
from dataclasses import dataclass
from pathlib import Path

from ..tool import Unusable
from .places import BEFORE, BEHIND, CLOSING, ENDING, PLACES, WORDS, Place

VERSIONS = ("1.19", "1.20", "1.21")
OWN = Path(__file__).parent / "runtime"
MARKER = b"GOHEAP_RECORD_EVERY="  # stands in each program that was built with the overlay


class Refused(Unusable):
    """No overlay can be made; the text says why."""


@dataclass(frozen=True)
class Toolchain:
    """What the go command says of itself."""

    version: str  # such as go1.21.13
    runtime: Path  # folder of package runtime


def toolchain(go: str = "go") -> Toolchain:
    """Asks the go command; refuses where it is not one whose runtime is known."""
    names = ("GOVERSION", "GOROOT", "GOOS", "GOARCH")
    try:
        answer = subprocess.run([go, "env", *names], capture_output=True, text=True, check=True).stdout
    except OSError as error:
        raise Refused(f"{go}: {error.strerror}") from error
    except subprocess.CalledProcessError as error:
        raise Refused(f"{go} env: {error.stderr.strip()}") from error
    version, root, system, machine = (answer.split("\n") + [""] * 4)[:4]
    if (system, machine) != ("linux", "amd64"):
        raise Refused(f"a recording is made on linux/amd64, not on {system}/{machine}")
    if not any(re.fullmatch(rf"go{re.escape(known)}(\.\d+)?", version.split(" ")[0]) for known in VERSIONS):
        raise Refused(f"{version}: only Go {', '.join(VERSIONS[:-1])} and {VERSIONS[-1]} are known")
    return Toolchain(version, Path(root) / "src" / "runtime")


def prepare(go: str = "go", cache: Path | None = None) -> str:
    """Path of the overlay.json for this go command. It is made where it is not in the cache."""
    known = toolchain(go)
    originals = {name: _read(known, name) for name in _files()}
    folder = (cache or cache_folder()) / f"{known.version.split(' ')[0]}-{_digest(known, originals)}"
    target = folder / "overlay.json"
    if target.is_file():
        return str(target)
    texts = changed(known, originals)
    folder.mkdir(parents=True, exist_ok=True)
    replace = {}
    for name, text in texts.items():
        _store(folder / name, text)
        replace[str(known.runtime / name)] = str(folder / name)
    _store(target, json.dumps({"Replace": replace}, indent=1) + "\n")
    return str(target)


def difference(go: str = "go") -> str:
    """The difference that the overlay makes to the runtime, as a unified diff."""
    known = toolchain(go)
    originals = {name: _read(known, name) for name in _files()}
    parts = []
    for name, text in changed(known, originals).items():
        left = str(known.runtime / name) if name in originals else "/dev/null"
        parts += [f"--- {left}", f"+++ goheap/{name}", *_hunks(originals.get(name, "").splitlines(), text.splitlines())]
    return "\n".join(parts) + "\n"


def _hunks(before: list[str], after: list[str]) -> list[str]:
    """The unified diff of texts of which the second has lines more, and nothing less."""
    context, at, added = 3, 0, []
    for number, line in enumerate(after):
        if at < len(before) and line == before[at]:
            at += 1
        else:
            added.append(number)
    lines: list[str] = []
    while added:
        count = 1
        while count < len(added) and added[count] - added[count - 1] <= 2 * context + 1:
            count += 1
        hunk, skipped = added[:count], len(after) - len(before) - len(added)
        first, last = max(0, hunk[0] - context), min(len(after), hunk[-1] + context + 1)
        old = last - first - count
        lines.append(f"@@ -{first - skipped + (old > 0)},{old} +{first + 1},{last - first} @@")
        lines += [("+" if number in hunk else " ") + after[number] for number in range(first, last)]
        added = added[count:]
    return lines


def cache_folder() -> Path:
    """Where overlays are kept: below XDG_CACHE_HOME, or the user's .cache."""
    base = os.environ.get("XDG_CACHE_HOME", "")
    return (Path(base) if base.startswith("/") else Path.home() / ".cache") / "goheap" / "overlay"


def changed(known: Toolchain, originals: dict[str, str]) -> dict[str, str]:
    """The files of the overlay by their names: the changed ones, and our own."""
    texts = {name: text.split("\n") for name, text in originals.items()}
    for place in PLACES:
        _insert(known.version, texts[place.file], place)
    result = {name: "\n".join(lines) for name, lines in texts.items()}
    words = {word.name: _word(known.version, originals[word.file].split("\n"), word) for word in WORDS}
    for path in sorted(OWN.glob("*.go.txt")):
        text = path.read_text()
        for name, becomes in words.items():
            text = text.replace(name, becomes)
        result[path.name.removesuffix(".txt")] = text
    return result


def _files() -> list[str]:
    return sorted({place.file for place in PLACES} | {word.file for word in WORDS})


def _read(known: Toolchain, name: str) -> str:
    try:
        return (known.runtime / name).read_text()
    except OSError as error:
        raise Refused(f"{known.version}: {known.runtime / name}: {error.strerror}") from error


def _digest(known: Toolchain, originals: dict[str, str]) -> str:
    """Of all that the overlay is made from."""
    total = hashlib.sha256(str(known).encode())
    own = [*OWN.glob("*.go.txt"), Path(__file__), Path(__file__).parent / "places.py"]
    for name, text in [*sorted(originals.items()), *((path.name, path.read_text()) for path in sorted(own))]:
        total.update(f"{name}\0{len(text)}\0{text}".encode())
    return total.hexdigest()[:16]


def _store(path: Path, text: str) -> None:
    """Whole or not at all, since two builds may make the same overlay at once."""
    part = path.with_name(f"{path.name}.{os.getpid()}.part")
    part.write_text(text)
    part.replace(path)


def _function(version: str, lines: list[str], file: str, header: str, event: str) -> tuple[int, int]:
    """The lines of a function: of its declaration, and of its closing brace."""
    starts = [at for at, line in enumerate(lines) if line.startswith(header)]
    if len(starts) != 1:
        raise Refused(f"{version}: {event}: runtime/{file} has `{header}` {len(starts)} times, not once")
    for at in range(starts[0], len(lines)):
        if lines[at] == "}":
            return starts[0], at
    raise Refused(f"{version}: {event}: `{header}` in runtime/{file} has no end")


def _find(version: str, lines: list[str], place: Place) -> list[tuple[int, re.Match[str]]]:
    first, last = _function(version, lines, place.file, place.function, place.event)
    pattern = re.compile(r"\s*" + place.statement)
    found = [(at, match) for at in range(first, last) if (match := pattern.fullmatch(lines[at]))]
    if len(found) != place.times:
        raise Refused(f"{version}: {place.event}: `{place.function}` in runtime/{place.file} has {len(found)} statements "
                      f"`{place.statement}`, not {place.times}")
    return found if place.which is None else [found[place.which]]


def _insert(version: str, lines: list[str], place: Place) -> None:
    if place.where == ENDING:
        last = _function(version, lines, place.file, place.function, place.event)[1]
        lines.insert(last, "\t" + place.call)
        return
    for at, match in reversed(_find(version, lines, place)):
        indent = lines[at][: len(lines[at]) - len(lines[at].lstrip("\t"))]
        target = {BEFORE: at, BEHIND: at + 1, CLOSING: _closing(lines, at, indent)}[place.where]
        lines.insert(target, indent + match.expand(place.call))


def _closing(lines: list[str], at: int, indent: str) -> int:
    """The line that closes the block in which line `at` stands."""
    return next(i for i in range(at, len(lines)) if lines[i] == indent[:-1] + "}")


def _word(version: str, lines: list[str], word) -> str:
    first, last = _function(version, lines, word.file, word.function, word.name)
    pattern = re.compile(r"\s*" + word.line)
    found = [match[1] for line in lines[first:last] if (match := pattern.fullmatch(line))]
    if len(found) != 1 or found[0] not in word.becomes:
        raise Refused(f"{version}: {word.name}: runtime/{word.file} has `{word.line}` as {found or 'nothing'}")
    return word.becomes[found[0]]
