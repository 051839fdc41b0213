"""Reads a report strictly, and finds the first line of its text that is malformed, and why (`docs/report-format.md`)."""

import io
import itertools
import re
from typing import Dict, Iterable, List, Optional, Pattern, Sequence, Tuple

from goheap_tools.formats import report
from goheap_tools.formats.report import Report
from goheap_tools.tool import Unusable

KINDS = ("o", "j", "s", "t", "p", "end")
# The words of the forms below that stand for numbers, by the bits that these have.
WIDTHS = {"N": 64, "W": 32, "C": 8}
# A line's forms by its kind: of an object, a journal line, a sweep, a total, a bucket.
TEXTS = {
    "o": ("o N zero", "o N miss N", "o N 0xA"),
    "j": ("j N W take W W C", "j N W miss W C", "j N W give W W", "j N W scav W W", "j N W pull W W W", "j N W cut W W W C", "j N W drop W W W",
          "j N W hold W W", "j N W keep W W W", "j N W free W W", "j N W lend W W"),
    "s": ("s W W W W",),
    "t": ("t C N N",),
    "p": ("p W W N N N",),
    "end": ("end",),
}  # fmt: skip
# How many of a line's numbers are its place in the order of its kind.
PLACES = {"s": 2, "t": 1, "p": 3}
WHAT = {"o": "objects", "j": "the journal", "s": "sweeps", "t": "totals", "p": "the profile", "end": "the end"}


def form(text: str) -> Pattern[str]:
    """A line's form."""
    parts = [f"(?P<n{at}>0|[1-9][0-9]{{0,19}})" if word in WIDTHS else word.replace("0xA", "0x(?:0|[1-9a-f][0-9a-f]{0,15})") for at, word in enumerate(text.split(" "))]
    return re.compile(" ".join(parts))


# Each form with the bits of its numbers, by the first word of a line and the word that tells a line of the journal.
FORMS: Dict[str, List[Tuple[Pattern[str], List[int]]]] = {kind: [(form(text), [WIDTHS[word] for word in text.split(" ") if word in WIDTHS]) for text in texts] for kind, texts in TEXTS.items()}


def has_form(kind: str, line: str) -> bool:
    """Whether it is a line of this kind, with numbers that have their bits."""
    for pattern, widths in FORMS[kind]:
        if found := pattern.fullmatch(line):
            return all(int(number) >> bits == 0 for number, bits in zip(found.groups(), widths))
    return False


def line_fault(line: str, before: Optional[Sequence[str]], count: int) -> Optional[str]:
    """Why the line may not stand behind the one before, or nothing. `count` is how many lines of its kind came."""
    words = line.split(" ")
    kind = words[0]
    if kind not in FORMS:
        return "it is no line of a report"
    if not has_form(kind, line):
        return f"it is not the form of a line of {WHAT[kind]}"
    if before and KINDS.index(kind) < KINDS.index(before[0]):
        return f"a line of {WHAT[kind]} may not stand behind one of {WHAT[before[0]]}"
    if kind in "oj" and int(words[1]) != count:
        return f"the lines of {WHAT[kind]} are numbered from 0, so its number should be {count}"
    places = PLACES.get(kind)
    if places and before and before[0] == kind and list(map(int, words[1 : places + 1])) <= list(map(int, before[1 : places + 1])):
        return f"the lines of {WHAT[kind]} rise in their order, and the line before is `{' '.join(before)}`"
    return None


def text_fault(lines: Sequence[str]) -> Optional[Tuple[int, str]]:
    """The first line that is malformed, with why, or nothing."""
    before: Optional[List[str]] = None
    counts = dict.fromkeys(KINDS, 0)
    for number, line in enumerate(lines, 1):
        if before == ["end"]:
            return number, "nothing may stand behind `end`"
        line, is_whole = line.rstrip("\n"), line.endswith("\n")
        why = line_fault(line, before, counts.get(line.split(" ")[0], 0)) if is_whole else "the report ends within it"
        if why:
            return number, f"{why}: `{line[:120]}`"
        before = line.split(" ")
        counts[before[0]] += 1
    return None if before == ["end"] else (len(lines) + 1, "the report ends without the line `end`")


# The forms by which reports are read, with numbers that do not begin with 0.
STRICT = {letter: re.sub(rb"\[0-9\]\{1,[0-9]+\}", rb"(?:0|[1-9][0-9]{0,19})", form).replace(rb"0x[0-9a-f]{1,16}", rb"0x(?:0|[1-9a-f][0-9a-f]{0,15})") for letter, form in report.FORMS.items()}


def lines_of(data: bytes) -> List[str]:
    """The lines of a text."""
    return io.StringIO(data.decode("utf-8", "surrogateescape"), newline="\n").readlines()


def rise(places: Iterable) -> bool:
    """Whether each place is above the one before."""
    return all(first < second for first, second in itertools.pairwise(places))


def is_in_order(read: Report) -> bool:
    """Whether the lines of a report rise in their orders, and its numbers have their bits."""
    sweeps, totals, buckets = (rows.columns for rows in (read.sweeps, read.totals, read.buckets))
    narrow = itertools.chain(*sweeps, *buckets[:2], itertools.chain.from_iterable(read.journal))
    classes = itertools.chain(totals[0], (getattr(line, "span_class", 0) for line in read.journal))
    return (max(narrow, default=0) >> 32 == 0 and max(classes, default=0) >> 8 == 0 and max(read.misses.values(), default=0) >> 64 == 0
            and rise(zip(*sweeps[:2])) and rise(totals[0]) and rise(zip(*buckets[:3])))  # fmt: skip


def strict_report(data: bytes) -> Optional[Report]:
    """The report of this text; nothing where a line of it is malformed."""
    try:
        read = report.read(io.BytesIO(data), "report", STRICT)
    except Unusable:
        return None
    return read if data.endswith(b"\n") and is_in_order(read) else None
