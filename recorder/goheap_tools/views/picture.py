"""Draws a report as one SVG: the page map over the journal, and charts under it."""

import base64
import itertools
import struct
import zlib
from typing import Iterable, Iterator, List, Optional, Sequence, Set, Tuple, Union

from goheap_tools.formats.journal import Line
from goheap_tools.formats.report import Report, Sweep
from goheap_tools.formats.stacks import Stacks
from goheap_tools.formats.traces import Trace
from goheap_tools.heap.classes import BASE, PAGE
from goheap_tools.heap.pages import FREE, UNTOUCHED
from goheap_tools.views.course import Course, Found, Holders, Life, class_text, slot_and_room, top_page
from goheap_tools.views.painted import Painted
from goheap_tools.views.sheet import FIRST_FUNCTION, FREED, IN_SPANS, KEPT, KINDS, LAST, MEBIBYTE, MISS, escaped, function_rows, group, mebibytes, opened, title_of

LEFT, TOP, WIDTH, MAP_HEIGHT, CHART_HEIGHT, GAP, LEGEND = 76, 78, 900, 420, 100, 50, 280
CHARTS = 4
# Where mark ends stand, with their numbers.
Marks = List[Tuple[float, int]]
# Spans of the map, and spans or parts of the last mark end's, that have a word of their own under the pointer: those of the largest area.
MOST_TITLES = 400
# Above so many pages the chart of how full they are is a histogram, of so many bars.
MOST_PAGES_APART, BARS = 300, 10
# Letters of a function's name in the legend.
MOST_NAME = 36
# What the legend says of the words of the picture.
WORDS = (
    "A span is a run of pages for objects of",
    "one size. Its class says which size, and",
    "whether they have pointers: class 2k and",
    "2k + 1 are those of size class k (goheap",
    "classes), 0 and 1 are for one large object.",
    "A page has 8192 bytes. Point at a span to",
    "see its pages, its class and its objects.",
)


def png(drawn: List[List[bytes]], rows: int) -> bytes:
    """The map as a picture, the highest page in the topmost row."""
    raw = b"".join(b"\0" + b"".join(one[row] for one in drawn) for row in reversed(range(rows)))

    def chunk(name, data):
        return struct.pack(">I", len(data)) + name + data + struct.pack(">I", zlib.crc32(name + data))

    head = struct.pack(">IIBBBBB", len(drawn), rows, 8, 2, 0, 0, 0)
    unused = b"".join(b"\0" + bytes([one]) for one in bytes.fromhex(KINDS[UNTOUCHED][0][1:]))  # shows the paper
    return b"\x89PNG\r\n\x1a\n" + chunk(b"IHDR", head) + chunk(b"tRNS", unused) + chunk(b"IDAT", zlib.compress(raw, 9)) + chunk(b"IEND", b"")


def pointed(x: float, y: float, width: float, height: float, words: Iterable[str], colour: str = "none") -> str:
    """A place that says so many lines when it is pointed at."""
    return (f'<rect x="{x:.1f}" y="{y:.1f}" width="{max(width, 1):.1f}" height="{max(height, 1):.1f}" fill="{colour}" pointer-events="all">'
            f"<title>{escaped(chr(10).join(words))}</title></rect>")


def text(x: float, y: float, what: object, anchor: str = "start", size: int = 12) -> str:
    return f'<text x="{x:.1f}" y="{y:.1f}" font-size="{size}" text-anchor="{anchor}">{what}</text>'


def box(x: float, y: float, colour: str) -> str:
    return f'<rect x="{x}" y="{y - 11}" width="14" height="14" fill="{colour}" stroke="#999"/>'


def steps(most: float, count: int) -> Iterable[int]:
    """Round numbers from 0 to `most`, at most `count` apart from 0."""
    width, factors = 1.0, itertools.cycle((2, 2.5, 2))
    while most > width * count:
        width *= next(factors)
    return range(0, int(most) + 1, int(width))


def parts_of(most: float, count: int) -> List[float]:
    """Round parts of a whole from 0 on, at most `count` apart from 0, and the whole itself; none of them so near to it that their numbers touch."""
    scale = 1
    while most * scale < count and scale < 1000:
        scale *= 10
    return [*(value / scale for value in steps(most * scale, count) if value / scale < most * (1 - 0.6 / count)), most]


def axis(y: float, height: float, most: float, count: int, in_mebibytes: bool = False) -> Iterator[str]:
    """Numbers and thin lines on the left, from 0 at the bottom to `most` at the top; of pages in MiB."""
    top = most * PAGE / MEBIBYTE if in_mebibytes else most
    values = parts_of(top, count) if in_mebibytes else [*(value for value in steps(most, count) if value < most * (1 - 0.6 / count)), most]
    for value in values:
        at = y + height - height * value / top
        yield f'<line class="line" x1="{LEFT - 4}" y1="{at:.1f}" x2="{LEFT}" y2="{at:.1f}"/>'
        yield text(LEFT - 7, at + 4, number_text(value), "end", 11)
    if in_mebibytes:
        yield text(LEFT - 7, y - 7, "MiB", "end", 11)


def number_text(value: float) -> str:
    return f"{value:,}" if isinstance(value, int) else f"{value:,.3g}" if value < 100 else f"{value:,.0f}"


def area(y: float, values: Sequence[float], most: float, colour: str) -> str:
    """What lies under a step line."""
    width, path, before = WIDTH / len(values), [f"M{LEFT} {y + CHART_HEIGHT}"], None
    for number, value in enumerate(values):
        if value != before:
            path.append(f"H{LEFT + number * width:.1f}V{y + CHART_HEIGHT - CHART_HEIGHT * value / most:.1f}")
            before = value
    path.append(f"H{LEFT + WIDTH}V{y + CHART_HEIGHT}z")
    return f'<path d="{"".join(path)}" fill="{colour}"/>'


def frame(y: float, height: float, title: str, marks: Marks) -> Iterator[str]:
    """The border of a chart over the journal, its title, and a dashed line at each mark end."""
    for x, _ in marks[:-1]:
        yield f'<line class="mark" x1="{x:.1f}" y1="{y}" x2="{x:.1f}" y2="{y + height}" stroke-opacity="0.3" stroke-dasharray="3 3"/>'
    for x, _ in marks[-1:]:
        yield f'<line x1="{x:.1f}" y1="{y}" x2="{x:.1f}" y2="{y + height}" stroke="{LAST}" stroke-width="1.5" stroke-dasharray="6 3"/>'
    yield f'<rect class="line" x="{LEFT}" y="{y}" width="{WIDTH}" height="{height}"/>'
    yield text(LEFT, y - 7, title)


def chart(y: float, title: str, layers: Sequence[Tuple[str, Sequence[float], str]], marks: Marks, in_mebibytes: bool = False) -> Iterator[str]:
    """Areas over the journal, the later ones before the earlier ones."""
    most = max(max(values) for _, values, _ in layers) or 1
    yield f'<rect x="{LEFT}" y="{y}" width="{WIDTH}" height="{CHART_HEIGHT}" class="soft"/>'
    for at, (name, values, colour) in enumerate(layers):
        yield area(y, values, most, colour)
        if name:
            yield box(LEFT + WIDTH + 20, y + 12 + 22 * at, colour) + text(LEFT + WIDTH + 40, y + 12 + 22 * at, name)
    yield from axis(y, CHART_HEIGHT, most, 4, in_mebibytes)
    yield from frame(y, CHART_HEIGHT, title, marks)


def by_mark_end(sweeps: Iterable[Sweep]) -> Tuple[int, List[Tuple[int, int, int]]]:
    """The objects kept and freed by each mark end; where there are too many mark ends to draw, by the last of so many."""
    cycles = max((sweep.cycle for sweep in sweeps), default=0)
    kept, freed = [0] * cycles, [0] * cycles
    for sweep in sweeps:
        kept[sweep.cycle - 1] += sweep.kept
        freed[sweep.cycle - 1] += sweep.freed
    every = -(-cycles // (WIDTH // 2)) or 1
    return every, [(number + 1, kept[number], freed[number]) for number in range(cycles) if (number + 1) % every == 0 or number + 1 == cycles]


def kept_title(every: int, bars: List[Tuple[int, int, int]]) -> str:
    if not bars:
        return "no mark end"
    return "objects at each mark end" if every == 1 else f"objects at each mark end whose number {every} divides, and the last"


def kept_chart(y: float, every: int, bars: List[Tuple[int, int, int]]) -> Iterator[str]:
    """Two bars for each mark end: the objects that its sweeps kept, and those that they freed, one upon the other."""
    yield f'<rect x="{LEFT}" y="{y}" width="{WIDTH}" height="{CHART_HEIGHT}" class="soft"/>'
    most = max((kept + freed for _, kept, freed in bars), default=0) or 1
    step = WIDTH / max(len(bars), 1)
    width = max(step * 0.8, 1)
    end = None
    for number, (mark_end, kept, freed) in enumerate(bars):
        x = LEFT + number * step + (step - width) / 2
        low, high = CHART_HEIGHT * kept / most, CHART_HEIGHT * freed / most
        yield f'<rect x="{x:.1f}" y="{y + CHART_HEIGHT - low:.1f}" width="{width:.1f}" height="{low:.1f}" fill="{KEPT}"/>'
        yield f'<rect x="{x:.1f}" y="{y + CHART_HEIGHT - low - high:.1f}" width="{width:.1f}" height="{high:.1f}" fill="{FREED}"/>'
        middle, half = x + width / 2, 4 + 3.5 * len(str(mark_end))
        if end is None or middle - half > end:
            yield text(middle, y + CHART_HEIGHT + 17, mark_end, "middle", 11)
            end = middle + half
    yield from frame(y, CHART_HEIGHT, kept_title(every, bars), [])
    if not bars:
        return
    yield text(LEFT - 7, y + CHART_HEIGHT + 17, "mark end", "end", 11)
    yield from axis(y, CHART_HEIGHT, most, 4)
    for at, (name, colour) in enumerate((("kept", KEPT), ("freed", FREED))):
        yield box(LEFT + WIDTH + 20, y + 12 + 22 * at, colour) + text(LEFT + WIDTH + 40, y + 12 + 22 * at, name)


def mark_places(journal: Sequence[Line], last: int) -> Marks:
    """Where each mark end up to the last one stands among the journal's lines, with its number: at the first line of its cycle or of a later
    one, or at the end. Where there are too many to draw, the last one alone."""
    places, cycle = [], 0
    for number, line in enumerate(journal):
        while cycle < min(line.cycle, last):
            cycle += 1
            places.append((LEFT + WIDTH * number / len(journal), cycle))
    places += [(LEFT + WIDTH, number) for number in range(cycle + 1, last + 1)]
    return places if len(places) <= 200 else places[-1:]


def mark_names(marks: Marks) -> Iterator[str]:
    """The numbers of the cycles under the map, those that have room."""
    end: float = LEFT - 4
    if marks:
        yield text(LEFT - 7, TOP + MAP_HEIGHT + 17, "mark end", "end", 11)
    for x, cycle in marks:
        half = 4 + 3.5 * len(str(cycle))
        if end < x - half and x + half < LEFT + WIDTH + 10:
            yield text(x, TOP + MAP_HEIGHT + 17, cycle, "middle", 11)
            end = x + half


def legend(misses: int, shown: Set[int], functions: List[str]) -> Iterator[str]:
    x, y = LEFT + WIDTH + 20, TOP + 12
    for number, (colour, name) in enumerate(function_rows(functions)):
        if FIRST_FUNCTION + number in shown:
            yield box(x, y, colour) + text(x + 20, y, escaped(cut(name)))
            y += 22
    for kind in sorted(KINDS, reverse=True):
        if kind in shown:
            colour, name = KINDS[kind]
            yield box(x, y, "var(--paper)" if kind == UNTOUCHED else colour) + text(x + 20, y, name)
            y += 22
    yield f'<line x1="{x}" y1="{y - 4}" x2="{x + 14}" y2="{y - 4}" stroke="{LAST}" stroke-width="1.5" stroke-dasharray="6 3"/>' + text(x + 20, y, "the last mark end")
    y += 22
    if misses:
        yield f'<path d="M{x + 2} {y - 11} h10 l-5 10 z" fill="{MISS}"/>' + text(x + 20, y, f"miss: no run of pages ({misses:,})")
        y += 22
    for line in WORDS:
        yield text(x, y + 6, line, size=11)
        y += 15


def cut(name: str) -> str:
    """A name as long as the legend is wide, its end, which tells most."""
    return name if len(name) <= MOST_NAME else ".." + name[2 - MOST_NAME :]


def summary(course: Course, bars: List[Tuple[int, int, int]]) -> str:
    """What the picture comes to, in a line."""
    backed, in_spans, spans = course.backed[-1], course.in_spans[-1], course.spans[-1]
    told = f"At the end {backed:,} pages ({mebibytes(backed)}) are backed, {in_spans:,} of them in {spans:,} spans."
    if bars:
        mark_end, kept, _ = bars[-1]
        pages = course.kept_bytes[mark_end] / PAGE
        held = sum(span.pages for span in course.found if span.kept)
        told += f" Mark end {mark_end} kept {kept:,} objects in slots of {mebibytes(pages)}"
        told += f", in spans of {mebibytes(held)}: {100 * pages / held:.0f} % full." if held else "."
    return told


def map_title(report: Report, rows: int) -> str:
    pages = top_page(report.journal)
    mixed = "" if pages == rows else f"; the colours of up to {-(-pages // rows)} pages in a row are mixed"
    return f"pages of 8 KiB by number, over the {len(report.journal):,} lines of the journal, from left to right{mixed}"


def span_words(span: Union[Life, Found], course: Course, holders: Holders) -> Iterator[str]:
    """What a span says when it is pointed at."""
    run = f"page {span.page}" if span.pages == 1 else f"pages {span.page} to {span.page + span.pages - 1}"
    yield f"span at {run} ({BASE + span.page * PAGE:#x})"
    yield class_text(span.span_class, span.pages)
    found = course.found_at.get(span.page)
    if found and found.span_class == span.span_class and getattr(span, "end", None) is None:
        room = slot_and_room(found.span_class, found.pages)[1]
        yield f"mark end {course.last_mark_end} kept {found.kept} of them ({100 * found.kept / room:.0f} % full), and freed {found.freed}"
        yield from holders.of(span.page)


def life_titles(course: Course, holders: Holders, columns: int) -> Iterator[str]:
    """The spans of the map under the pointer, the newer ones before the older ones."""
    height = MAP_HEIGHT / len(course.found_kinds)
    end_of = lambda life: columns if life.end is None else life.end
    lives = sorted(course.lives, key=lambda life: -(end_of(life) - life.begin + 1) * life.pages)[:MOST_TITLES]
    for life in sorted(lives, key=lambda life: life.begin):
        x = LEFT + WIDTH * life.begin / columns
        words = [*span_words(life, course, holders), f"taken in cycle {life.cycle}" + ("" if life.end is None else ", and given back")]
        yield pointed(x, TOP + MAP_HEIGHT - (life.page + life.pages) * height, WIDTH * (end_of(life) - life.begin) / columns, life.pages * height, words)


def keys(y: float, rows: Iterable[Tuple[str, str]]) -> Iterator[str]:
    """What the colours of a chart mean."""
    for at, (name, colour) in enumerate(rows):
        yield box(LEFT + WIDTH + 20, y + 12 + 22 * at, colour) + text(LEFT + WIDTH + 40, y + 12 + 22 * at, name)


def fill_chart(y: float, course: Course, holders: Holders) -> Iterator[str]:
    """How full the spans are that the last mark end found: by their pages, or of many pages by how full they are."""
    yield f'<rect x="{LEFT}" y="{y}" width="{WIDTH}" height="{CHART_HEIGHT}" class="soft"/>'
    count = len(course.found_kinds)
    found = f"mark end {course.last_mark_end}, the last one: {len(course.found):,} spans"
    if course.found and count > MOST_PAGES_APART:
        yield from histogram(y, course)
        title = f"how full the spans are at {found} of {mebibytes(sum(span.pages for span in course.found))}, by how full they are"
    elif course.found:
        yield from fills_by_page(y, course, holders, count)
        title = f"how full each page is at {found}"
    else:
        title = "no span at a mark end"
    yield from frame(y, CHART_HEIGHT, title, [])


def fills_by_page(y: float, course: Course, holders: Holders, count: int) -> Iterator[str]:
    fills = list(course.fills(min(count, WIDTH)))
    for at, colour in ((1, KINDS[FREE][0]), (0, IN_SPANS), (2, KEPT)):
        yield area(y, [fill[0] + fill[1] if at == 1 else fill[at] for fill in fills], 1, colour)
    for span in sorted(course.found, key=lambda span: -span.pages)[:MOST_TITLES]:
        yield pointed(LEFT + WIDTH * span.page / count, y, WIDTH * span.pages / count, CHART_HEIGHT, span_words(span, course, holders))
    yield from keys(y, (("objects that it kept", KEPT), ("room in their spans", IN_SPANS), ("free pages, backed", KINDS[FREE][0])))
    for page in steps(count, 10):
        yield text(LEFT + WIDTH * page / count, y + CHART_HEIGHT + 17, f"{page:,}", "middle", 11)
    yield text(LEFT - 7, y + CHART_HEIGHT + 17, "page", "end", 11)
    for part in (0, 50, 100):
        yield text(LEFT - 7, y + CHART_HEIGHT - CHART_HEIGHT * part / 100 + 4, f"{part} %", "end", 11)


def bars_of(found: Sequence[Found]) -> List[Tuple[int, float, float]]:
    """For each tenth of how full a span can be: the spans, their pages, and the pages that their objects would fill. A span without an object is
    in the first one, and a full one in the last."""
    bars = [(0, 0.0, 0.0)] * BARS
    for span in found:
        slot, room = slot_and_room(span.span_class, span.pages)
        at = min(span.kept * BARS // room, BARS - 1)
        spans, pages, kept = bars[at]
        bars[at] = spans + 1, pages + span.pages, kept + span.kept * slot / PAGE
    return bars


def histogram(y: float, course: Course) -> Iterator[str]:
    bars = bars_of(course.found)
    most = max(pages for _, pages, _ in bars)
    width = WIDTH / BARS
    for at, (spans, pages, kept) in enumerate(bars):
        x, high, low = LEFT + at * width + width / 10, CHART_HEIGHT * pages / most, CHART_HEIGHT * kept / most
        yield f'<rect x="{x:.1f}" y="{y + CHART_HEIGHT - high:.1f}" width="{0.8 * width:.1f}" height="{high:.1f}" fill="{IN_SPANS}"/>'
        yield f'<rect x="{x:.1f}" y="{y + CHART_HEIGHT - low:.1f}" width="{0.8 * width:.1f}" height="{low:.1f}" fill="{KEPT}"/>'
        words = f"{at * 100 // BARS} to {(at + 1) * 100 // BARS} % full: {spans:,} spans of {mebibytes(pages)}", f"their objects have {mebibytes(kept)}"
        yield pointed(x, y, 0.8 * width, CHART_HEIGHT, words)
    for at in range(BARS + 1):
        yield text(LEFT + at * width, y + CHART_HEIGHT + 17, f"{at * 100 // BARS} %", "middle", 11)
    yield from axis(y, CHART_HEIGHT, most, 4, True)
    yield from keys(y, (("objects that it kept", KEPT), ("room in their spans", IN_SPANS)))


def head(course: Course, title: str, bars: List[Tuple[int, int, int]], height: float) -> Iterator[str]:
    yield opened(LEFT + WIDTH + LEGEND, height, f"{title}. {summary(course, bars)}")
    yield text(LEFT, 24, escaped(title), size=16)
    yield text(LEFT, 45, summary(course, bars))


def page_map(report: Report, course: Course, holders: Holders, columns: int, rows: int, marks: Marks) -> Iterator[str]:
    """The pages over the journal, with what their spans say under the pointer."""
    data = base64.b64encode(png(course.map, rows)).decode()
    yield (f'<image x="{LEFT}" y="{TOP}" width="{WIDTH}" height="{MAP_HEIGHT}" preserveAspectRatio="none"'
           f' style="image-rendering:pixelated" href="data:image/png;base64,{data}"/>')
    yield from life_titles(course, holders, columns)
    yield from axis(TOP, MAP_HEIGHT, top_page(report.journal), 8, True)
    yield from frame(TOP, MAP_HEIGHT, map_title(report, rows) + ("; dashed: a mark end" if marks else ""), marks)
    yield from mark_names(marks)
    for number in sorted(set(course.misses)):
        x = LEFT + WIDTH * (number + 0.5) / columns
        yield f'<path d="M{x - 4:.1f} {TOP - 2} h8 l-4 9 z" fill="{MISS}"/>'
    yield from legend(len(course.misses), course.kinds, course.painted.names if course.painted else [])


def draw(report: Report, title: Optional[str], trace: Optional[Trace] = None, stacks: Stacks = Stacks({}, {}, {}), by_function: bool = False) -> Iterator[str]:
    """The picture; without a title it has what the stacks tell. By function it needs the trace."""
    journal = report.journal
    columns = min(max(len(journal), 1), WIDTH)
    rows = min(top_page(journal), MAP_HEIGHT)
    course = Course(report, columns, rows, trace, Painted(trace, report, stacks) if by_function and trace else None)
    holders = Holders(course, report, trace, stacks.frames)
    last = max((line.cycle for line in itertools.chain(journal, report.sweeps)), default=0)
    (every, bars), marks = by_mark_end(report.sweeps), mark_places(journal, last)
    charts = [TOP + MAP_HEIGHT + GAP + at * (CHART_HEIGHT + GAP) for at in range(CHARTS)]
    yield from head(course, title_of(stacks) if title is None else title, bars, charts[-1] + CHART_HEIGHT + 30)
    yield from group("the pages of the region from journal line to journal line", page_map(report, course, holders, columns, rows, marks), "group")
    layers = [("free", course.backed, KINDS[FREE][0]), ("in spans", course.in_spans, IN_SPANS), ("objects that the last mark end kept", course.kept_pages(), KEPT)]
    yield from group("backed memory, and what it holds, over the journal", chart(charts[0], "backed memory, and what it holds", layers, marks, True))
    yield from group("live spans over the journal", chart(charts[1], "live spans", [("", course.spans, IN_SPANS)], marks))
    yield from group("objects that each mark end kept and freed", kept_chart(charts[2], every, bars))
    yield from group("how full the spans are at the last mark end", fill_chart(charts[3], course, holders), "group")
    yield "</svg>"
