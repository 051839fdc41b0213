"""Draws the page map of a mark end: each kept span shaded by how full it is, with who keeps it where the pointer stands."""

from collections import Counter
from typing import Any, Dict, Iterator, List, Tuple

from goheap_tools.heap.classes import BASE, PAGE, SLOTS
from goheap_tools.heap.pages import CACHED, HELD, LENT, UNTOUCHED
from goheap_tools.heap.pages import FREE as FREE_PAGE
from goheap_tools.heap.pinning import FREE, STEPS, Groups, Names, Pins
from goheap_tools.views.painted import Holding
from goheap_tools.views.sheet import FUNCTION_COLOURS, KINDS, MEBIBYTE, SHADES, escaped, function_rows, group, opened

UNBACKED_COLOUR = KINDS[UNTOUCHED][0]
LEFT, TOP, WIDTH, LEGEND, ROW = 90, 78, 896, 300, 19
# Pages in a row, and how high the map may be.
COLUMNS, HEIGHT = range(16, 257, 4), 616
MOST_STACKS = 12  # below the map
MOST_HOLDERS = 4  # of a span, where the pointer stands
MOST_NAME = 30  # letters of a function's name in the legend
# The runs that are no span's, as the map of the journal has them too.
OTHER_KINDS = (HELD, CACHED, LENT)


def text(x: float, y: float, what: str, anchor: str = "start", size: int = 12) -> str:
    return f'<text x="{x:.1f}" y="{y:.1f}" font-size="{size}" text-anchor="{anchor}">{escaped(what)}</text>'


class Grid:
    """Where pages stand: in rows, from left to right and down."""

    def __init__(self, pages: int) -> None:
        self.columns = next((columns for columns in COLUMNS if -(-pages // columns) * WIDTH <= columns * HEIGHT), COLUMNS[-1])
        self.cell = WIDTH / self.columns
        self.rows = -(-pages // self.columns) or 1
        self.height = self.rows * self.cell

    def path(self, page: int, pages: int) -> str:
        """The outline of a run of pages, a box for each row."""
        parts, end = [], page + pages
        while page < end:
            row, column = divmod(page, self.columns)
            count = min(end - page, self.columns - column)
            width = count * self.cell
            parts.append(f"M{LEFT + column * self.cell:g} {TOP + row * self.cell:g}h{width:g}v{self.cell:g}h-{width:g}z")
            page += count
        return "".join(parts)


def runs_of(region: Any, kind: bytes) -> Iterator[Tuple[int, int]]:
    """The first page and the number of pages of each run of this kind."""
    at = region.find(kind)
    while at >= 0:
        end = at
        while end < len(region) and region[end] == kind[0]:
            end += 1
        yield at, end - at
        at = region.find(kind, end)


def shade_of(pins: Pins, span: int) -> int:
    return (pins.used[span] * STEPS - 1) // pins.slots[span]


def told(pins: Pins, names: Names, span: int) -> str:
    """What is said of a span: where it is, its class, its objects, the stacks that hold it."""
    page, pages, used = pins.first[span], pins.pages[span], pins.used[span]
    kind = "without pointers" if pins.span_class[span] % 2 else "with pointers"
    what = f"objects of {SLOTS[pins.span_class[span] // 2]:,} bytes {kind}" if pins.span_class[span] > 1 else f"a large object {kind}"
    lines = [
        f"page {page:,}{f' to {page + pages - 1:,}' if pages > 1 else ''}, {BASE + page * PAGE:#x}: {what}",
        f"{used:,} of {pins.slots[span]:,} slots live, {pins.asked[span]:,} of {pages * PAGE:,} bytes",
    ]
    held = Counter(names.same_frames(stack) for stack in pins.stacks_of(span))
    first = {names.same_frames(stack): stack for stack in sorted(pins.stacks_of(span), reverse=True)}
    lines.append("pinned by one stack:" if len(held) == 1 else f"held by {len(held):,} stacks:")
    for key, count in held.most_common(MOST_HOLDERS):
        lines.append(f"{count:,} x stack {first[key]} {names.shown(first[key])[0]}")
    if len(held) > MOST_HOLDERS:
        lines.append("..")
    return "\n".join(lines)


def key(x: float, y: float, colour: str, what: str) -> str:
    return f'<rect x="{x}" y="{y - 11}" width="14" height="14" fill="{colour}" stroke="#999"/>' + text(x + 20, y, what)


def shades_told(shades: List[int]) -> List[Tuple[str, str]]:
    """The colours of the spans by how full they are, with what the legend says."""
    counts = Counter(shades)
    return [(colour, f"{100 * step / STEPS:g} to {100 * (step + 1) / STEPS:g} %: {counts[step]:,}") for step, colour in enumerate(SHADES)]


def functions_told(holding: Holding) -> List[Tuple[str, str]]:
    """The same of spans by the function that holds most of them."""
    counts = Counter(holding.of_span)
    return [(colour, f"{name if len(name) <= MOST_NAME else '..' + name[2 - MOST_NAME :]}: {counts[at]:,}") for at, (colour, name) in enumerate(function_rows(holding.names)) if counts[at]]


def legend(pins: Pins, title: str, rows: List[Tuple[str, str]]) -> Iterator[str]:
    x, y = LEFT + WIDTH + 24, TOP + 12
    yield text(x, y, title)
    others = [KINDS[kind] for kind in OTHER_KINDS if kind in pins.kinds]
    for colour, name in (*rows, KINDS[FREE_PAGE], *others, (UNBACKED_COLOUR, "free, no memory behind it")):
        y += ROW + 2
        yield key(x, y, "var(--paper)" if colour == UNBACKED_COLOUR else colour, name)
    y += ROW + 8
    backed = pins.backed * PAGE
    for name, size in (*pins.sums().items(), ("backed", backed)):
        y += ROW
        yield text(x, y, name) + text(x + 205, y, f"{size:,}", "end") + text(x + 262, y, f"{100 * size / (backed or 1):.1f} %", "end")


def rows_of(grid: Grid) -> Iterator[str]:
    """Where some rows begin, in MiB, and where the last one ends."""
    every = max(1, round(28 / grid.cell))
    for row in range(0, max(grid.rows - every // 2, 1), every):
        yield text(LEFT - 7, TOP + row * grid.cell + min(grid.cell, 12), f"{row * grid.columns * PAGE / MEBIBYTE:,.3g}", "end", 11)
    if grid.height > 40:
        yield text(LEFT - 7, TOP + grid.height + 12, f"{grid.rows * grid.columns * PAGE / MEBIBYTE:,.3g}", "end", 11)
    yield text(LEFT - 7, TOP - 12, "MiB", "end", 11)


def stack_rows(groups: Groups, order: List[int], names: Names, y: float) -> Iterator[str]:
    """The stacks that pin most; the pointer on one outlines its spans."""
    if not order:
        yield text(LEFT, y, "no stack alone pins a span")
        return
    columns = ((LEFT + 90, "pinned"), (LEFT + 160, "spans"), (LEFT + 250, "own"), (LEFT + 320, "objects"))
    yield "".join(text(x, y, name, "end") for x, name in columns) + text(LEFT + 340, y, "stack; the pointer on a row outlines the spans that the stack pins")
    for place, at in enumerate(order):
        y += ROW
        cells = zip(columns, (groups.pinned[at], groups.spans[at], groups.own[at], groups.live[at]))
        number = groups.first[at]
        yield (f'<g id="k{place}"><rect x="{LEFT}" y="{y - 14}" width="{WIDTH + LEGEND}" height="{ROW}" fill="var(--paper)"/>'
               + "".join(text(x, y, f"{count:,}", "end") for (x, _), count in cells) + text(LEFT + 340, y, f"{number} {names.shown(number)[0]}") + "</g>")


def style(count: int, colours: List[str]) -> str:
    return ("#map path:hover{stroke:var(--ink);stroke-width:2}" + "".join(f"#s{step}{{fill:{colour}}}" for step, colour in enumerate(colours)) + "g[id^=k]:hover rect{fill:var(--point)!important}"
            + "".join(f"#k{place}:hover~#map .k{place}{{stroke:var(--ink);stroke-width:2}}" for place in range(count)))  # fmt: skip


def ground(pins: Pins, grid: Grid) -> Iterator[str]:
    """What lies behind the spans: the region, what is free and backed, and what is in no span and not free."""
    yield f'<path d="{grid.path(0, len(pins.region))}" class="paper" stroke="#999"/>'
    free = "".join(grid.path(*run) for run in runs_of(pins.region, FREE))
    yield f'<path d="{free}" fill="{KINDS[FREE_PAGE][0]}"/>'
    for kind in OTHER_KINDS:
        if runs := "".join(grid.path(*run) for run in runs_of(pins.kinds, bytes([kind]))):
            yield f'<path d="{runs}" fill="{KINDS[kind][0]}"><title>{KINDS[kind][1]}</title></path>'


def draw(pins: Pins, names: Names, title: str, by_function: bool = False) -> Iterator[str]:
    grid, groups = Grid(len(pins.region)), names.stacks(pins)
    order = [at for at in groups.order(MOST_STACKS) if groups.pinned[at]]
    places = {groups.first[at]: place for place, at in enumerate(order)}
    lowest = {names.same_frames(groups.first[at]): groups.first[at] for at in order}
    holding = Holding(pins, names) if by_function else None
    colours = list(FUNCTION_COLOURS if holding else SHADES)
    shades = holding.of_span if holding else [shade_of(pins, span) for span in range(len(pins.first))]
    below = TOP + max(grid.height, 430) + 40
    told = f"Mark end {pins.mark_end} of {pins.mark_ends}: {pins.backed:,} pages backed, {sum(pins.pages):,} of them in {len(pins.first):,} spans kept."
    yield opened(LEFT + WIDTH + LEGEND, below + ROW * (len(order) + 1), f"{title}. {told}", style(len(order), colours))
    yield text(LEFT, 24, title, size=16)
    yield text(LEFT, 45, told)
    yield text(LEFT, TOP - 12, f"pages of 8 KiB by number, {grid.columns} a row, from left to right and down; the pointer on a span tells its class, its objects and who holds it")
    what = ("kept spans, by who holds most of them", functions_told(holding)) if holding else ("kept spans, by live slots", shades_told(shades))
    yield from group("what the colours mean, and the parts of the backed bytes", legend(pins, *what), "group")
    yield from rows_of(grid)
    yield from stack_rows(groups, order, names, below)
    yield from ground(pins, grid)
    yield f'<g id="map" role="group" aria-label="kept spans" stroke="var(--paper)" stroke-width="{min(1, grid.cell / 10):g}">'
    for step in range(len(colours)):
        yield f'<g id="s{step}">'
        for span, shade in enumerate(shades):
            if shade == step:
                yield drawn(pins, names, span, grid, places, lowest)
        yield "</g>"
    yield "</g>"
    yield "</svg>"


def drawn(pins: Pins, names: Names, span: int, grid: Grid, places: Dict[int, int], lowest: Dict[Any, int]) -> str:
    keys = {names.same_frames(stack) for stack in pins.stacks_of(span)}
    place = places.get(lowest.get(keys.pop(), -1)) if len(keys) == 1 else None
    mark = f' class="k{place}"' if place is not None else ""
    return f'<path d="{grid.path(pins.first[span], pins.pages[span])}"{mark}><title>{escaped(told(pins, names, span))}</title></path>'
