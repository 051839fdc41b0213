"""Commands of Go that make programs, and how the overlay gets into them."""

import json
import os
import re
import shutil
import subprocess
from typing import Iterator, List, NamedTuple, Optional, Sequence

from goheap_tools import tool

MAKE = ("build", "install", "run", "test")
RUN = ("run", "test")
# Flags whose value is the next word where none is behind a `=`; all others stand alone.
VALUED = frozenset("""C asmflags bench benchtime blockprofile blockprofilerate buildmode compiler count covermode coverpkg coverprofile cpu cpuprofile exec
    fuzz fuzzminimizetime fuzztime gccgoflags gcflags installsuffix ldflags list memprofile memprofilerate mod modfile mutexprofile mutexprofilefraction o outputdir
    overlay p parallel pgo pkgdir run shuffle skip tags timeout toolexec trace vet""".split())
ASKED = ("GOVERSION", "GOROOT", "GOOS", "GOARCH", "GOFLAGS")
SANITIZERS = {
    "race": "the race detector changes what a program allocates: sync.Pool drops objects at random, and goroutines, objects and stacks have its data beside them",
    "msan": "the memory sanitizer changes how a program allocates",
    "asan": "the address sanitizer changes how a program allocates",
}


class Flag(NamedTuple):
    at: int  # which word
    name: str
    value: Optional[str]


def is_go(words: Sequence[str]) -> bool:
    """Whether this is a command of Go that makes a program."""
    return len(words) > 1 and bool(re.fullmatch(r"go(\d[\w.]*)?", os.path.basename(words[0]))) and words[1] in MAKE


def flags_of(words: Sequence[str]) -> Iterator[Flag]:
    """The flags of a go command. Those of `go test` may stand behind the packages; else the first word that is none ends them."""
    at = 2
    while at < len(words):
        word = words[at]
        if word in ("-args", "--args", "--") or not word.startswith("-") and words[1] != "test":
            return
        if word.startswith("-") and len(word) > 1:
            name, equals, value = word.lstrip("-").partition("=")
            if name.startswith("test."):
                name = name[len("test.") :]
            if equals or name not in VALUED:
                yield Flag(at, name, value if equals else None)
            else:
                yield Flag(at, name, words[at + 1] if at + 1 < len(words) else None)
                at += 1
        at += 1


def quoted(words: Sequence[str]) -> str:
    """One text of these words, as the go command takes them apart: at blanks, but for what stands between two marks."""
    out = []
    for word in words:
        mark = next((mark for mark in ("'", '"') if mark not in word), None) if re.search(r"[\s'\"]", word) or not word else ""
        if mark is None:
            raise tool.Unusable(f"{word}: the go command cannot be told a name with both kinds of quotation marks")
        out.append(mark + word + mark)
    return " ".join(out)


class GoCommand:
    """A go command as it was asked for, what it is about, and what it becomes."""

    def __init__(self, words: Sequence[str]):
        self.words = list(words)
        go = shutil.which(words[0])
        if go is None:
            raise tool.Unusable(f"{words[0]}: no such command: is Go's bin folder on the path?")
        self.go: str = go
        self.kind = words[1]
        self.flags = list(flags_of(words))
        self.values = {flag.name: flag.value for flag in self.flags}
        self.folder = self.values.get("C") or "."
        self.about = self.ask()
        self.check()

    @property
    def runs(self) -> bool:
        """Whether the program is run as well."""
        return self.kind in RUN and not self.is_set("c") and "list" not in self.values

    def is_set(self, name: str) -> bool:
        """Whether a flag without a value is given, and not as false."""
        return name in self.values and (self.values[name] or "true").lower() not in ("0", "f", "false")

    def ask(self) -> dict:
        """What the go command says of itself: in this folder, since a module may ask for another version."""
        ran = subprocess.run([self.go, "env", "-json", *ASKED], cwd=self.folder, capture_output=True, text=True)
        try:
            return json.loads(ran.stdout)
        except ValueError:
            raise tool.Unusable(f"{self.go} env: {ran.stderr.strip() or 'no answer'}") from None

    def check(self) -> None:
        """Refuses what cannot be recorded, with the reason."""
        given = self.about.get("GOFLAGS", "").split()
        for name, reason in SANITIZERS.items():
            if self.is_set(name) or f"-{name}" in given or f"-{name}=true" in given:
                raise tool.Unusable(f"-{name}: {reason}, so that the recording would not be of your program: build it without")
        kind = self.about.get("GOOS"), self.about.get("GOARCH")
        if kind != ("linux", "amd64"):
            raise tool.Unusable(f"programs for {'/'.join(map(str, kind))} cannot be recorded, only those for linux/amd64 (see GOOS and GOARCH)")
        if self.values.get("compiler") == "gccgo":
            raise tool.Unusable("-compiler gccgo: its programs have another runtime; only those of Go's own compiler are recorded")
        if "overlay" in self.values or any(word.startswith(("-overlay", "--overlay")) for word in given):
            raise tool.Unusable("the go command has an -overlay of its own, and takes one alone: record it without")
        if "vet" in self.values and self.values["vet"] != "off":
            raise tool.Unusable("-vet reads the runtime's files as they are on the disk, and not those that are built: run `go vet` by itself")
        if self.runs and "exec" in self.values:
            raise tool.Unusable("-exec: the program is begun by the recorder, so that nobody else can: record what you built by itself")

    def changed(self, overlay: str, runner: Optional[Sequence[str]]) -> List[str]:
        """The command with the overlay, and with who runs the program, where it is run. A -C has to stay the first flag."""
        front = 2
        if self.flags and self.flags[0].at == 2 and self.flags[0].name == "C":
            front = 3 if "=" in self.words[2] else 4
        added = [f"-overlay={overlay}"]
        if self.kind == "test":
            added += ["-vet=off"]
            if self.runs and "count" not in self.values and "fuzz" not in self.values:
                added += ["-count=1"]  # a result that was kept is no run
        if self.runs and runner:
            added += [f"-exec={quoted(runner)}"]
        return [self.go, *self.words[1:front], *added, *self.words[front:]]
