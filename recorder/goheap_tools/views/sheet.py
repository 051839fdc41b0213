"""What both pictures have in common: their colours, each of which means one thing wherever it stands, their texts, their style, and their titles."""

from typing import Dict, Iterable, Iterator, List, Tuple

from goheap_tools.formats.stacks import Stacks
from goheap_tools.heap.classes import PAGE
from goheap_tools.heap.pages import CACHED, FREE, HELD, LARGE, LARGE_PLAIN, LENT, RELEASED, SMALL, SMALL_PLAIN, UNTOUCHED

# What a page is shown as: its colour, and what the legend says.
KINDS: Dict[int, Tuple[str, str]] = {
    UNTOUCHED: ("#ffffff", "never used"),
    FREE: ("#c9c9c9", "free, backed"),
    RELEASED: ("#efe3c8", "free, scavenged"),
    SMALL: ("#2f7d4f", "span of small objects with pointers"),
    SMALL_PLAIN: ("#93cf9e", "span of small objects without pointers"),
    LARGE: ("#b3541e", "large object with pointers"),
    LARGE_PLAIN: ("#f0b070", "large object without pointers"),
    CACHED: ("#e6d36a", "in a page cache"),
    HELD: ("#d98cb3", "stacks, and other uses"),
    LENT: ("#7fd1c7", "out to the scavenger"),
}
# Of spans that are coloured by the function that holds most of them: the five that hold most of all, and the others.
FUNCTIONS = 5
FIRST_FUNCTION = LENT + 1
FUNCTION_COLOURS = ("#6a3d9a", "#00798c", "#c2187a", "#8c6d1f", "#2b2d77", "#8d99ae")
OTHERS = "of other functions"
# Objects that a mark end kept and freed, what no object fills of the spans, requests for which there was no run, and the last mark end.
KEPT, FREED, IN_SPANS, MISS, LAST = "#1f5fa8", "#f4a7a0", "#7fb3e6", "#d4002a", "#8a2be2"
# How full a span is, from the emptiest to the fullest.
SHADES = ("#b2182b", "#d6604d", "#f4a582", "#fddbc7", "#d1e5f0", "#92c5de", "#4393c3", "#2166ac")

STYLE = (
    "svg{--ink:#1b1f24;--paper:#ffffff;--soft:#fafafa;--line:#555555;--point:#ffffd0}"
    "@media (prefers-color-scheme:dark){svg{--ink:#e8eaed;--paper:#14171b;--soft:#1b1f25;--line:#a3adb8;--point:#4a4416}}"
    "text{fill:var(--ink)}.paper{fill:var(--paper)}.soft{fill:var(--soft)}.line{stroke:var(--line);fill:none}.mark{stroke:var(--ink)}"
)
MEBIBYTE = 1 << 20


def escaped(what: str) -> str:
    """Text as XML has it, in an attribute too; what cannot be printed becomes a question mark."""
    what = "".join(one if one.isprintable() or one == "\n" else "?" for one in what)
    return what.replace("&", "&amp;").replace("<", "&lt;").replace(">", "&gt;").replace('"', "&quot;").encode("utf-8", "replace").decode()


def opened(width: float, height: float, label: str, style: str = "") -> str:
    """The beginning of a picture; a reader that speaks says the label."""
    return (f'<svg xmlns="http://www.w3.org/2000/svg" viewBox="0 0 {width:g} {height:g}" width="{width:g}" height="{height:g}" role="group" aria-label="{escaped(label)}"'
            f' style="max-width:100%;height:auto" font-family="sans-serif"><style>{STYLE}{style}</style><rect class="paper" width="100%" height="100%"/>')


def group(label: str, parts: Iterable[str], role: str = "img") -> Iterator[str]:
    """A part of the picture with what it shows."""
    yield f'<g role="{role}" aria-label="{escaped(label)}">'
    yield from parts
    yield "</g>"


def mebibytes(pages: float) -> str:
    size = pages * PAGE / MEBIBYTE
    return f"{size:.2f} MiB" if size < 10 else f"{size:.0f} MiB"


def title_of(stacks: Stacks) -> str:
    """What a picture is called that nobody called otherwise: the program, its Go and the day of its recording."""
    header = stacks.header
    told = [header[name] for name in ("program", "go", "date") if header.get(name)]
    return ", ".join(told) or "goheap report"


def function_rows(names: List[str]) -> List[Tuple[str, str]]:
    """The legend of spans by function."""
    return list(zip(FUNCTION_COLOURS, [*names, *[""] * (FUNCTIONS - len(names)), OTHERS]))
