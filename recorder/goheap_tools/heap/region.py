"""Which line may come next in a report's journal, and why another may not (`docs/pages.md`)."""

from typing import Any, Callable, Dict, List, Optional, Type

from goheap_tools.formats.journal import BLOCK, REAL_LINES, Cut, Drop, Free, Give, Hold, Keep, Lend, Line, Miss, Pull, Scav, Take, line_text
from goheap_tools.heap.classes import PAGES, SLOTS
from goheap_tools.heap.judged import class_name, pages_text
from goheap_tools.heap.pages import CHUNK, MOST_SCAVENGED, Block, Pages

# The least pages of a large span, and the least of a run that is cut out of no page cache.
LEAST_LARGE, UNCUT = 5, 16
# The first version in which processors have page caches.
CACHING = 2

Sentences = Optional[List[str]]


class Region(Pages):
    """The pages of a trace's region as the journal goes on."""

    def __init__(self, header: Dict[str, int], version: int) -> None:
        super().__init__(header["chunks"] * CHUNK, version)
        self.goal, self.procs = header["goal"], header["procs"] if version >= CACHING else 0
        self.cutting: Optional[int] = None  # the processor of the line before, where that is a Cut
        self.version = version

    def go_on(self, line: Line) -> None:
        self.cutting = line.proc if isinstance(line, Cut) else None
        super().go_on(line)

    def fault(self, line: Line) -> Sentences:
        """Why the line may not come next, in sentences, or nothing."""
        return self.turn_fault(line) or FAULTS[type(line)](self, line)

    def turn_fault(self, line: Line) -> Sentences:
        """Why no such line may come while these blocks are out, or at all, or nothing. In a real run any may."""
        if self.is_real:
            return None
        if isinstance(line, REAL_LINES):
            return [f"In a trace of version {self.version} no journal has such a line: runs for others than objects, and runs that are lent, come with version 4."]
        if self.cutting is not None and not (isinstance(line, (Cut, Drop)) and line.proc == self.cutting):
            return [f"Behind a cut comes another cut of the same processor, {self.cutting}, or the drop of its block."]
        for proc, block in sorted(self.blocks.items()):
            if block.cycle != line.cycle:
                return [f"The block at page {block.page}, which processor {proc} pulled in cycle {block.cycle}, is out: each line up to its drop is of that cycle."]
        return None

    def span_fault(self, line: Any) -> Sentences:
        """Why no span of this class has so many pages, or nothing."""
        size_class = line.span_class // 2
        if size_class >= len(SLOTS):
            return [f"There is no span class {line.span_class}: they are 0 to {2 * len(SLOTS) - 1}."]
        if size_class and line.pages != PAGES[size_class]:
            return [f"A span for {class_name(line.span_class)} has {PAGES[size_class]} pages, and not {line.pages}."]
        if not size_class and line.pages < LEAST_LARGE:
            return [f"A span for one large object has at least {LEAST_LARGE} pages, since the largest small size fills 4, and not {line.pages}."]
        return None

    def fit_fault(self, line: Any, otherwise: str) -> Sentences:
        """Why the line's run is not at first fit, or nothing. `otherwise` is said where there is no fit."""
        fit = self.first_fit(line.pages)
        if fit == line.page:
            return None
        if fit < 0:
            return [f"From no page are {line.pages} pages free{otherwise}."]
        why = "lies behind it" if line.page > fit else "is not free to its end"
        return [f"Pages are taken at first fit: the least page from which {line.pages} are free is {fit}, and {pages_text(line.page, line.pages)} {why}.",
                f"`{line_text(line._replace(page=fit))}` should stand there."]  # fmt: skip

    def take_fault(self, line: Take) -> Sentences:
        return self.span_fault(line) or self.fit_fault(line, f", so a `miss {line.pages} {line.span_class}` should stand there")

    def miss_fault(self, line: Miss) -> Sentences:
        if not line.pages:
            return ["A miss is of at least one page."]
        fit = self.first_fit(line.pages)
        return None if fit < 0 else [f"{line.pages} pages are free from page {fit} on, so nothing was missed: `take {fit} {line.pages} {line.span_class}` should stand there."]

    def give_fault(self, line: Give) -> Sentences:
        span = self.spans.get(line.page)
        if span and span.pages == line.pages:
            return None
        if span:
            return [f"The span that begins at page {line.page} has {span.pages} pages, and gives all of them back: `give {line.page} {span.pages}` should stand there."]
        over = max((page for page in self.spans if page < line.page), default=None)
        if over is not None and over + self.spans[over].pages > line.page:
            return [f"No span begins at page {line.page}: it is in the span at {pages_text(over, self.spans[over].pages)}, which is given back whole."]
        if line.page in self.held:
            return [f"What begins at page {line.page} is a run for others than objects, and goes back by `free {line.page} {self.held[line.page]}`."]
        return [f"No span begins at page {line.page}, so none can be given back there."]

    def scav_fault(self, line: Scav) -> Sentences:
        lent = self.lent.get(line.page)
        if lent is not None:
            return None if lent == line.pages else [f"The run of {lent} pages that was lent at page {line.page} comes back whole: `scav {line.page} {lent}` should stand there."]
        if self.backed <= self.goal:
            return [f"Pages are scavenged only while more are backed than the goal: {self.backed} are, and the goal is {self.goal}."]
        step = self.step()
        if step is None:
            return ["No free page is backed, so nothing can be scavenged."]
        if step == (line.page, line.pages):
            return None
        return [f"A step scavenges the highest free page that is backed, with the free and backed ones directly below it in its chunk, at most {MOST_SCAVENGED}:"
                f" `scav {step[0]} {step[1]}` should stand there."]  # fmt: skip

    # Page caches.

    def pull_fault(self, line: Pull) -> Sentences:
        if not self.procs:
            return ["In a trace of version 1 no processor has a page cache."]
        if line.proc >= self.procs:
            return [f"There is no processor {line.proc}: they are 0 to {self.procs - 1}."]
        block = self.blocks.get(line.proc)
        if block:
            return [f"Processor {line.proc} has the block at page {block.page} out, which it is to drop before it pulls another."]
        found = self.first_block()
        if found is None:
            return ["No page is free, so no block can be pulled."]
        page, left = found
        should = Pull(line.cycle, line.proc, page, left.bit_count())
        least = page + (left & -left).bit_length() - 1
        return None if line == should else [f"What is pulled is the block of the least free page, {least}, with all its free pages: `{line_text(should)}` should stand there."]

    def no_block(self, line: Any) -> Sentences:
        """That the line's processor has no block."""
        return [f"Processor {line.proc} has no block out."]

    def run_fault(self, block: Block, line: Any, what: str) -> Sentences:
        """Why this is not the first run of its pages that is left of the block, or nothing."""
        fit = block.first_run(line.pages)
        if fit is None:
            return [f"In what is left of the block at page {block.page} no {line.pages} pages lie side by side."]
        if fit == line.page:
            return None
        return [f"{what} at the first run of its pages that is left of the block at page {block.page}: `{line_text(line._replace(page=fit))}` should stand there."]

    def cut_fault(self, line: Cut) -> Sentences:
        block = self.blocks.get(line.proc)
        if block is None:
            return self.no_block(line)
        if line.pages >= UNCUT:
            return [f"A span of {UNCUT} or more pages is cut out of no page cache, and this one has {line.pages}."]
        return self.span_fault(line) or self.run_fault(block, line, "A span is cut")

    def drop_fault(self, line: Drop) -> Sentences:
        block = self.blocks.get(line.proc)
        if block is None:
            return self.no_block(line)
        should = Drop(line.cycle, line.proc, block.page, block.count())
        return None if line == should else [f"Of the block at page {block.page}, {block.count()} pages are left: `{line_text(should)}` should stand there."]

    # Real runs.

    def hold_fault(self, line: Hold) -> Sentences:
        if not line.pages:
            return ["A run for others than objects has at least one page."]
        return self.fit_fault(line, "")

    def keep_fault(self, line: Keep) -> Sentences:
        block = self.blocks.get(line.proc)
        if block is None:
            return self.no_block(line)
        if not 0 < line.pages < UNCUT:
            return [f"A run that is kept out of a page cache has at least one page and fewer than {UNCUT}, and this one has {line.pages}."]
        return self.run_fault(block, line, "A run is kept")

    def free_fault(self, line: Free) -> Sentences:
        pages = self.held.get(line.page)
        if pages == line.pages:
            return None
        if pages:
            return [f"The run for others than objects that begins at page {line.page} has {pages} pages, and goes back whole: `free {line.page} {pages}` should stand there."]
        return [f"No run for others than objects begins at page {line.page}, so none can go back there."]

    def lend_fault(self, line: Lend) -> Sentences:
        if not line.pages:
            return ["A run that is lent has at least one page."]
        if line.page // CHUNK != (line.page + line.pages - 1) // CHUNK:
            return [f"A run that is lent lies in one chunk of {CHUNK} pages, and {pages_text(line.page, line.pages)} are of several."]
        if self.cannot_lend(line):
            return [f"Free pages that are backed are lent, and of {pages_text(line.page, line.pages)} not all are such."]
        return None


FAULTS: Dict[Type[Line], Callable[[Region, Any], Sentences]] = {
    Take: Region.take_fault, Miss: Region.miss_fault, Give: Region.give_fault, Scav: Region.scav_fault, Pull: Region.pull_fault, Cut: Region.cut_fault, Drop: Region.drop_fault,
    Hold: Region.hold_fault, Keep: Region.keep_fault, Free: Region.free_fault, Lend: Region.lend_fault,
}  # fmt: skip
