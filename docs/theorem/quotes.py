"""Finds definitions of the crates' specifications, and what each of them names."""

from __future__ import annotations

import re
from dataclasses import dataclass, field
from functools import lru_cache
from pathlib import Path

ROOT = Path(__file__).resolve().parents[2]
CRATES = {path.name for path in (ROOT / "crates").iterdir() if path.is_dir()}

# A word of the specifications, with its marks, as `left'`, `is-apart` and `◌+◌`.
WORD = re.compile(r"[^\W\d][\w'-]*")
ITEM = re.compile(r"^(?:(?:abbrev|unfoldable) pub|pub record|pub data) ([^\s:({]+)")
DECLARED = re.compile(r"^(?:pub(?:\(crate\))? )?(?:struct|enum|const|trait) (\w+)")
USE = re.compile(r"^(?:ghost |pub |unfoldable pub )?use Rattle\.(\w+)\.specs\.([\w.]+)\.\{([^}]*)\};?$")


class Lost(Exception):
    """A definition that the outline or another definition names, and that is not there."""


@dataclass(frozen=True)
class Place:
    """Where a definition stands: a file below the root, and its name there."""

    file: str
    name: str

    def __str__(self) -> str:
        return f"{self.file} {self.name}"


@dataclass
class Quote:
    """A definition: its place, its first line, its text with the comment above it, and the places that it names."""

    place: Place
    line: int
    text: str
    names: set[Place] = field(default_factory=set)


@lru_cache(maxsize=None)
def lines_of(file: str) -> tuple[str, ...]:
    path = ROOT / file
    if not path.is_file():
        raise Lost(f"{file}: there is no such file")
    return tuple(path.read_text(encoding="utf-8").split("\n"))


def file_of(crate: str, module: str) -> str:
    """The file of a module of a crate's specifications: one of specs/, or the source that declares a type."""
    parts = module.split(".")
    if parts[0] != "declared":
        return f"crates/{crate}/specs/{'/'.join(parts)}.antt"
    if parts[-1] == "TheVariants":
        parts = parts[:-1]
    inside = parts[1:-1]
    if not inside:
        return f"crates/{crate}/src/lib.rt"
    return f"crates/{crate}/src/{'/'.join(inside)}.rt"


@lru_cache(maxsize=None)
def imports_of(file: str) -> dict[str, Place]:
    """What each word means that a file brings in from the specifications of this repository's crates."""
    found: dict[str, Place] = {}
    for line in lines_of(file):
        match = USE.match(line)
        if not match or match[1] not in CRATES:
            continue
        crate, module, words = match.groups()
        for word in (it.strip() for it in words.split(",")):
            name, _, alias = word.partition(" as ")
            at = file_of(crate, module)
            if module.endswith(".TheVariants"):
                name, alias = module.split(".")[-2], alias or name
            found[alias or name] = Place(at, name)
    return found


@lru_cache(maxsize=None)
def items_of(file: str) -> dict[str, tuple[int, int]]:
    """The definitions of a file, each with its first line and the line behind its last, counted from 0."""
    lines, found = lines_of(file), {}
    is_source = file.endswith(".rt")
    for at, line in enumerate(lines):
        match = (DECLARED if is_source else ITEM).match(line)
        if not match:
            continue
        first, last = at, at + 1
        while first > 0 and lines[first - 1].startswith(("///", "#[") if is_source else "--"):
            first -= 1
        if is_source:
            while not lines[last - 1].startswith("}") and not lines[last - 1].endswith(";"):
                last += 1
        else:
            while last < len(lines) and lines[last]:
                last += 1
        found[match[1]] = (first, last)
    return found


@lru_cache(maxsize=None)
def declarations_of(crate: str) -> dict[str, Place]:
    """The types that a crate's sources declare, by name; of two of one name none, which no field of a quoted type has."""
    found: dict[str, list[Place]] = {}
    for path in sorted((ROOT / "crates" / crate / "src").rglob("*.rt")):
        file = str(path.relative_to(ROOT))
        for name in items_of(file):
            found.setdefault(name, []).append(Place(file, name))
    return {name: places[0] for name, places in found.items() if len(places) == 1}


@lru_cache(maxsize=None)
def types_in(file: str) -> dict[str, Place]:
    """The types of this repository that a source can name without a path."""
    crate, text = file.split("/")[1], "\n".join(lines_of(file))
    found: dict[str, Place] = {}
    for path, many, one in re.findall(r"^(?:pub )?use ([\w:]+)::(?:\{([^}]*)\}|(\w+));", text, re.M):
        first = path.split("::")[0]
        known = declarations_of(crate) if first in ("crate", "self", "super") else declarations_of(first) if first in CRATES else {}
        found.update({word.strip(): known[word.strip()] for word in (many or one).split(",") if word.strip() in known})
    found.update({name: Place(file, name) for name in items_of(file)})
    return found


def without_comments(text: str, is_source: bool) -> str:
    return re.sub(r"//.*" if is_source else r"--.*", "", text)


@lru_cache(maxsize=None)
def quote_of(place: Place) -> Quote:
    """The definition at a place."""
    items = items_of(place.file)
    if place.name not in items:
        passed_on = imports_of(place.file).get(place.name)
        if passed_on:
            return quote_of(passed_on)
        raise Lost(f"{place.file}: it has no definition {place.name}")
    first, last = items[place.name]
    is_source = place.file.endswith(".rt")
    text = "\n".join(line for line in lines_of(place.file)[first:last] if not line.startswith("#["))
    quote = Quote(place, first + 1, text)
    if is_source:
        words = set(WORD.findall(without_comments(text, True))) - {place.name}
        quote.names = {known[word] for known in (types_in(place.file), imports_of(place.file)) for word in words if word in known}
        return quote
    imports = imports_of(place.file)
    for word in WORD.findall(without_comments(text, is_source)):
        if word in imports:
            quote.names.add(imports[word])
        elif word in items and word != place.name:
            quote.names.add(Place(place.file, word))
    return quote


def call_of(file: str, function: str) -> Quote:
    """A public function with its contract, up to its body, and the places that its clauses name."""
    lines = lines_of(file)
    at = next((i for i, line in enumerate(lines) if re.match(rf"pub fn {function}\b", line)), None)
    if at is None:
        raise Lost(f"{file}: it has no public function {function}")
    first, last = at, at
    while lines[first - 1].startswith("///"):
        first -= 1
    while lines[last] != "{":
        last += 1
    text = "\n".join(lines[first:last])
    quote = Quote(Place(file, function), first + 1, text)
    imports = imports_of(file)
    clauses = without_comments("\n".join(lines[at:last]), True)
    types = types_in(file)
    quote.names = {known[word] for known in (types, imports) for word in WORD.findall(clauses) if word in known}
    return quote
