"""The lines of a report's journal, which say in order what was done to pages (`docs/report-format.md`)."""

from typing import Dict, NamedTuple, Type, Union

# The pages of a block of a page cache.
BLOCK = 64


class Take(NamedTuple):
    """A span is made."""

    cycle: int
    page: int
    pages: int
    span_class: int


class Miss(NamedTuple):
    """No run of so many pages was free."""

    cycle: int
    pages: int
    span_class: int


class Give(NamedTuple):
    """A span goes back."""

    cycle: int
    page: int
    pages: int


class Scav(NamedTuple):
    """Pages are scavenged."""

    cycle: int
    page: int
    pages: int


class Pull(NamedTuple):
    """The free pages of a block go to the page cache of a processor."""

    cycle: int
    proc: int
    page: int  # the first of the block
    pages: int


class Cut(NamedTuple):
    """A span is made out of a page cache."""

    cycle: int
    proc: int
    page: int
    pages: int
    span_class: int


class Drop(NamedTuple):
    """What is left of a processor's block goes back."""

    cycle: int
    proc: int
    page: int  # the first of the block
    pages: int


class Hold(NamedTuple):
    """A run is taken for others than objects."""

    cycle: int
    page: int
    pages: int


class Keep(NamedTuple):
    """A run for others than objects is taken out of a page cache."""

    cycle: int
    proc: int
    page: int
    pages: int


class Free(NamedTuple):
    """A run that was for others than objects goes back."""

    cycle: int
    page: int
    pages: int


class Lend(NamedTuple):
    """The scavenger takes a run of free pages, until they come back scavenged."""

    cycle: int
    page: int
    pages: int


Line = Union[Take, Miss, Give, Scav, Pull, Cut, Drop, Hold, Keep, Free, Lend]

KINDS: Dict[str, Type[Line]] = {
    "take": Take, "miss": Miss, "give": Give, "scav": Scav, "pull": Pull, "cut": Cut, "drop": Drop, "hold": Hold, "keep": Keep, "free": Free, "lend": Lend,
}  # fmt: skip
WORDS = {kind: word for word, kind in KINDS.items()}
# The lines that make a span, those of a whole block, and those of real runs, which are of version 4.
MAKING_LINES, BLOCK_LINES, REAL_LINES = (Take, Cut), (Pull, Drop), (Hold, Keep, Free, Lend)


def end_of(line: Line) -> int:
    """The page behind those that the journal line speaks of; 0 where it speaks of none."""
    if isinstance(line, Miss):
        return 0
    return line.page + (BLOCK if isinstance(line, BLOCK_LINES) else line.pages)


def line_text(line: Line) -> str:
    """A journal line's words behind its number and cycle."""
    return " ".join([WORDS[type(line)], *map(str, line[1:])])


def journal_text(number: int, line: Line) -> str:
    """The journal line of this number, as a report has it."""
    return f"`j {number} {line.cycle} {line_text(line)}`"
