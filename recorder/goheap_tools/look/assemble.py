"""Makes a page: one HTML file with its style, its code and its data, which needs nothing else."""

import html
import json
import os
from typing import Any, Dict, Iterator, List, Optional, Tuple

from goheap_tools.formats.stacks import Stacks
from goheap_tools.heap.classes import BASE, PAGE, PAGES, SLOTS
from goheap_tools.heap.difference import differences, in_use, ratio_of
from goheap_tools.heap.pinning import Pins
from goheap_tools.heap.profile import Profile
from goheap_tools.look import gather
from goheap_tools.look.columns import Columns
from goheap_tools.look.gather import Course, Recording, StackTable
from goheap_tools.look.summary import Facts, Sentence, sentences
from goheap_tools.tool import size_text
from goheap_tools.views.tables import Table

FOLDER = os.path.dirname(os.path.abspath(__file__))
# The parts of the page's code, in the order in which they stand in it.
CODE = ("data", "counts", "state", "draw", "summary", "time", "tree", "flame", "table", "place", "heap", "span", "pins", "two", "judged", "start")
# Characters that the columns of a page may have; the rest of a page takes few.
MOST = 7_800_000


def part(name: str) -> str:
    """One of the page's parts."""
    with open(os.path.join(FOLDER, name), encoding="utf-8") as file:
        return file.read()


def json_text(value: Any) -> str:
    """JSON that may stand in a page: nothing in it ends a script."""
    return json.dumps(value, ensure_ascii=True, separators=(",", ":")).replace("<", "\\u003c")


class Page:
    """What a page is made of."""

    def __init__(self, recording: Recording, title: str, files: Dict[str, str]) -> None:
        self.recording, self.title, self.files = recording, title, files
        self.course = Course(recording)
        count = recording.trace.mark_ends
        self.pins: Optional[Pins] = Pins(recording.trace, recording.report, count) if count else None
        self.judged: Dict[str, Any] = {}
        self.two: Optional[Dict[str, Any]] = None
        self.base: Optional[Recording] = None

    def hold_against(self, base: Recording, name: str) -> None:
        """Takes in another recording, to show what grew since."""
        self.base = base
        key = Table.key
        here, there = Profile(self.recording.mark_ends, key(self.recording.stacks), 0), Profile(base.mark_ends, key(base.stacks), 0)
        ratio = ratio_of(here, there)
        self.two = {
            "ratio": ratio, "markEnds": base.trace.mark_ends, "rows": [row._asdict() for row in differences(here, there)],
            "told": f"The base is {name}: {size_text(in_use(there))} live at its last mark end, and {size_text(in_use(here))} here. {ratio:.3f} times as many objects were allocated here;"
                    " a row's normalised change is what is live now less so many times what was in the base. Both are as of the last mark ends.",
        }  # fmt: skip

    def facts(self) -> Facts:
        return Facts(self.recording, self.course, self.pins, self.files)

    def text(self) -> str:
        """The page's text, of which the parts that take the most room are left out where it would be too long."""
        columns, places = self.columns()
        everyone, left_out, objects = list(gather.survivors(self.recording)), "", Columns()
        for choice, told in self.choices(everyone):
            objects, left_out = Columns(), told
            gather.put_objects(objects, self.recording, places, choice)
            if columns.size() + objects.size() < MOST:
                break
        columns.table.update(objects.table)
        return self.written(columns, left_out)

    def choices(self, everyone: List[int]) -> Iterator[Tuple[List[int], str]]:
        """The objects that the page may have, and what is said of those that it has not."""
        yield everyone, ""
        lasts, count = self.recording.trace.lasts(), self.recording.trace.mark_ends
        some = [one for one in everyone if lasts[one] >= count]
        yield some, f"The heap of the mark ends before the last one is without {len(everyone) - len(some):,} objects that had died by the last one: with them the page would be too long."
        yield [], f"The heap is without its {len(everyone):,} objects, with which the page would be too long: it has the spans, and no one who is in them or pins them."

    def written(self, columns: Columns, left_out: str) -> str:
        trace, stacks = self.recording.trace, self.recording.stacks
        missed, missed_bytes = gather.missed_of(self.recording)
        lines = sentences(self.facts()) + ([Sentence("limit", left_out)] if left_out else [])
        meta = {
            "title": self.title, "files": self.files, "version": trace.version, **trace.header, "objects": len(trace.sizes), "markEnds": trace.mark_ends,
            "leftOut": left_out, "missed": missed, "missedBytes": missed_bytes, "top": self.course.top, "others": self.course.others, "hasNames": bool(stacks.frames),
            "recorded": recorded(stacks), "words": gather.WORDS, "slots": SLOTS, "classPages": PAGES, "page": PAGE, "base": f"{BASE:x}", "aligned": gather.ALIGNED,
            "sentences": [line._asdict() for line in lines], "judged": self.judged, "two": self.two, "printed": self.printed(),
        }  # fmt: skip
        return page_text(self.title, json_text(meta), json_text(columns.table))

    def columns(self) -> Tuple[Columns, Dict[int, int]]:
        """All columns but those of the objects, and the places of the stacks."""
        columns, table = Columns(), StackTable()
        places = table.add(gather.stack_numbers(self.recording), self.recording.stacks)
        gather.put_profile(columns, self.recording.mark_ends, places)
        if self.base:
            base_places = table.add(gather.stack_numbers(self.base), self.base.stacks)
            gather.put_profile(columns, self.base.mark_ends, base_places, "base")
        columns.add("born", gather.marks_of(self.recording.trace), True)
        self.course.put(columns)
        gather.put_journal(columns, self.recording.report)
        table.put(columns)
        return columns, places

    def printed(self) -> Dict[str, int]:
        """What `pins` prints of the last mark end, which the page counts by itself and holds against this."""
        return {**self.pins.sums(), "backed": self.pins.backed * PAGE} if self.pins else {}


def recorded(stacks: Stacks) -> Dict[str, str]:
    """What the stacks file tells of the recording, but for what only tools ask for."""
    return {name: value for name, value in stacks.header.items() if name not in ("digest", "slots")}


def page_text(title: str, meta: str, data: str) -> str:
    """The whole page."""
    code = "\n".join(part(f"{name}.js") for name in CODE)
    filled = {"TITLE": html.escape(title), "STYLE": part("page.css"), "META": meta, "DATA": data, "CODE": code}
    pieces = part("page.html").split("@@")
    return "".join(filled.get(piece, piece) for piece in pieces)
