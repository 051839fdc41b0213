"""The sentences at the top of a page: what is live, what grew, what is kept by few, what came back, and what the numbers are not.

Each has the command that prints the same numbers, and where in the page they are to be seen.
"""

from typing import Any, Dict, Iterator, List, NamedTuple, Optional, Tuple

from goheap_tools.formats.journal import Miss
from goheap_tools.heap.classes import PAGE
from goheap_tools.heap.pages import FREE_KINDS, Pages
from goheap_tools.heap.pinning import Names, Pins, longest
from goheap_tools.heap.profile import Profile, Row
from goheap_tools.look.gather import Course, Recording, missed_of
from goheap_tools.tool import size_text
from goheap_tools.views.pin_tables import Functions, counted
from goheap_tools.views.tables import Lines, Table

# A function is said to leak that grew at this part of the mark ends, and by this part of what is live.
STEADY, MUCH = 0.6, 0.05
# Few objects are said to keep much where they pin this part of the backed memory, and so many times their own bytes.
PINNED, RATIO = 0.1, 4
# Of the objects behind the last mark end a word is said where they are this part.
BEHIND = 0.01


class Sentence(NamedTuple):
    """A sentence of the summary: its kind, its text, the view and the selection that show it, and the command that prints it."""

    kind: str  # `bad`, `good`, `fact` or `limit`
    text: str
    view: str = ""
    selection: str = ""
    check: str = ""


class Facts:
    """What the sentences are made of."""

    def __init__(self, recording: Recording, course: Course, pins: Optional[Pins], files: Dict[str, str]) -> None:
        self.recording, self.course, self.pins = recording, course, pins
        stacks = recording.stacks
        self.functions = Profile(recording.mark_ends, Table.key(stacks), 0)
        self.lines = Profile(recording.mark_ends, Lines.key(stacks), 0)
        self.names = Names(stacks.frames)
        self.live = sum(row.used for row in self.functions.rows.values())
        self.has_names = bool(stacks.frames)
        by_stacks = f" --stacks {files['stacks']}" if files.get("stacks") else ""
        self.leaks = f"leaks {files['report']} --trace {files['trace']}{by_stacks}"
        self.pinned = f"pins {files['trace']} {files['report']}{by_stacks}"
        self.check = f"cat {files['trace']} {files['report']} | goheap check"
        self.since = max(self.functions.last - self.functions.first, 0)

    def steady(self) -> List[Tuple[str, Row]]:
        """The functions that grew at most mark ends, and by much."""
        if self.since < 2 or not self.has_names:
            return []
        rows = [(name, row) for name, row in self.functions.rows.items() if row.grew >= STEADY * self.since and row.growth() >= MUCH * self.live]
        return sorted(rows, key=lambda pair: (-pair[1].growth(), pair[0]))

    def pinning(self) -> List[Tuple[Any, ...]]:
        """The functions few objects of which keep much memory: name, own, pinned, spans, cum own, cum pinned."""
        if not self.pins or not self.has_names:
            return []
        backed = self.pins.backed * PAGE
        return [row for row in Functions(self.pins, self.names, False).rows if row[2] >= PINNED * backed and row[2] >= RATIO * row[1]]


def percent(part: float, whole: float) -> str:
    return f"{100 * part / whole:.1f} %" if whole else "0 %"


def line_of(facts: Facts, function: str) -> str:
    """The line of a function from which most of its bytes in use come."""
    rows = {line: row.used for line, row in facts.lines.rows.items() if line == function or line.startswith(function + " ")}
    best = max(rows, key=lambda line: (rows[line], line), default="")
    return best[len(function) + 1 :]


def verdicts(facts: Facts) -> Iterator[Sentence]:
    """What is the matter, if anything."""
    steady, pinning = facts.steady(), facts.pinning()
    for name, row in steady[:3]:
        place = line_of(facts, name)
        yield Sentence("bad", f"{name} leaks, or fills a cache: what it allocated and is in use grew at {row.grew} of {facts.since} mark ends, from {size_text(row.first)} to"
                       f" {size_text(row.used)}, {percent(row.used, facts.live)} of all that is live{f'. It allocates at {place}' if place else ''}.", "table", f"function:{name}", f"{facts.leaks} --sort grew")  # fmt: skip
    for name, own, pinned, spans, _, _ in pinning[:3]:
        backed = facts.pins.backed * PAGE if facts.pins else 0
        yield Sentence("bad", f"Few objects keep much memory: {size_text(own)} that {name} allocated pin {size_text(pinned)} in {counted(spans, 'span')} that hold nothing else, {percent(pinned, backed)}"
                       f" of what is backed and {pinned / own:,.1f} times their own bytes.", "pins", f"function:{name}", f"{facts.pinned} --functions")  # fmt: skip
    if missing := last_miss(facts):
        yield missing
    if not steady and not pinning and not missed_of(facts.recording)[0]:
        yield Sentence("good", "Nothing stands out: no function grew steadily, no few objects keep much memory, and each object found room." if facts.since >= 2 else
                       "Nothing stands out, but there are too few mark ends to see what grows.", "table", "", facts.leaks)  # fmt: skip


def last_miss(facts: Facts) -> Optional[Sentence]:
    """What was asked for when objects found no room, and what was free then."""
    count, size = missed_of(facts.recording)
    if not count:
        return None
    journal = facts.recording.report.journal
    at = max(number for number, line in enumerate(journal) if isinstance(line, Miss))
    now = Pages(facts.recording.trace.header["chunks"] * 512, facts.recording.trace.version)
    for line in journal[:at]:
        now.go_on(line)
    free = sum(now.kinds.count(kind) for kind in FREE_KINDS)
    run = longest(bytes(now.busy).split(b"\1"))
    text = (f"{counted(count, 'object')} of {size:,} bytes found no room in the region of {len(now.kinds):,} pages. The last time, in cycle {journal[at].cycle}, {journal[at].pages:,} pages side by side"
            f" were asked for: {free:,} were free, but no more than {run:,} side by side.")  # fmt: skip
    return Sentence("bad", text, "heap", "", facts.leaks)


def live_sentence(facts: Facts) -> Iterator[Sentence]:
    """What is live."""
    profile = facts.functions
    if not profile.last:
        return
    rows = profile.rows
    objects = sum(row.allocs - row.frees for row in rows.values())
    text = f"At mark end {profile.last}, the last one, {size_text(facts.live)} are live in slots, {objects:,.0f} objects"
    if facts.has_names and facts.live:
        top = sorted(rows, key=lambda name: (-rows[name].used, name))[:3]
        text += "; the most by " + ", ".join(f"{name} ({size_text(rows[name].used)}, {percent(rows[name].used, facts.live)})" for name in top)
    yield Sentence("fact", text + ".", "flame", "", facts.leaks)


def growth_sentence(facts: Facts) -> Iterator[Sentence]:
    """What grew since the first mark end."""
    rows = facts.functions.rows
    if not facts.since:
        return
    total = facts.live - sum(row.first for row in rows.values())
    top = [name for name in sorted(rows, key=lambda name: (-rows[name].growth(), name)) if rows[name].growth() > 0][:3]
    what = ", ".join(f"{name} by {size_text(rows[name].growth())} ({rows[name].grew}/{facts.since})" for name in top)
    yield Sentence("fact", f"Since mark end {facts.functions.first} what is live {'grew' if total >= 0 else 'shrank'} by {size_text(abs(total))}{'; most grew ' + what if what and facts.has_names else ''}.",
                   "flame", "", f"{facts.leaks} --sort grew")  # fmt: skip


def memory_sentence(facts: Facts) -> Iterator[Sentence]:
    """What of the backed memory is in use, and what came back."""
    pins = facts.pins
    if not pins:
        return
    backed, sums = pins.backed * PAGE, pins.sums()
    yield Sentence("fact", f"{size_text(backed)} are backed with memory: {percent(sums['live objects'], backed)} are live objects, {percent(sums['free slots'], backed)} free slots in spans that are kept,"
                   f" {percent(sums['free pages'], backed)} free pages.", "pins", "", facts.pinned)  # fmt: skip
    spans = facts.course.numbers["spanPages"]
    peak = max(range(len(spans)), key=lambda at: (spans[at], -at))
    if peak + 1 < pins.mark_end and spans[peak] > spans[-1]:
        yield Sentence("fact", f"The most pages in spans were {spans[peak]:,} at mark end {peak + 1}; {spans[peak] - spans[-1]:,} of them came back since, and {spans[-1]:,} are in spans now.", "time", "", facts.pinned)


def limits(facts: Facts) -> Iterator[Sentence]:
    """What the numbers are not."""
    trace, stacks = facts.recording.trace, facts.recording.stacks
    if not trace.mark_ends:
        yield Sentence("limit", "The trace has no mark end, so nothing tells who lives: run the program with GOGC=20, or call runtime.GC() in it, twice at the end, and record it again.")
        return
    behind = len(trace.sizes) - trace.born[-1]
    if behind > BEHIND * len(trace.sizes):
        yield Sentence("limit", f"{behind:,} of {len(trace.sizes):,} objects ({percent(behind, len(trace.sizes))}) came behind the last mark end and are in no number: nothing tells whether they stay alive.", "time")
    if missed_of(facts.recording)[0]:
        yield Sentence("limit", "Objects that found no room are counted nowhere.", "", "", f"{facts.leaks}")
    if "limit" in stacks.header:
        yield Sentence("limit", f"The trace ends at the limit of {stacks.header['limit']}; what the program did behind it is in no number.")
    if "from mark end" in stacks.header:
        yield Sentence("limit", f"The trace begins at mark end {stacks.header['from mark end']} of the program's log: the objects that it found alive are the first ones.")
    yield Sentence("limit", "All objects of the trace are counted, at whatever rate the run sampled. Addresses, spans and free pages are those of the run of goheap, which places the program's objects as Go's allocator does:"
                   " where memory was given back to the system by Go's own scavenger in the background, the program had fewer free pages.")  # fmt: skip


def sentences(facts: Facts) -> List[Sentence]:
    """The summary."""
    found: List[Sentence] = []
    for part in (verdicts if facts.functions.last else lambda _: iter(()), live_sentence, growth_sentence, memory_sentence, limits):
        found.extend(part(facts))
    return found
