"""The tables of `leaks`: what functions, lines, types or stacks have in use, by the buckets of a report or of a trace."""

import argparse
from collections import defaultdict
from typing import Any, Callable, Dict, Iterable, Iterator, List

from goheap_tools.formats.frames import name_of, type_of
from goheap_tools.formats.report import Bucket
from goheap_tools.formats.stacks import Stacks
from goheap_tools.heap.classes import PAGE
from goheap_tools.heap.profile import Profile, Row
from goheap_tools.tool import plain, size_text


def growth_titles(profile: Profile) -> str:
    return f" {f'since {profile.first}':>10} {'grew':>6}" if profile.last > profile.first else ""


def growth_text(profile: Profile, row: Row) -> str:
    """How a row grew, where the counts of several mark ends are known."""
    return f" {size_text(row.growth()):>10} {f'{row.grew}/{profile.last - profile.first}':>6}" if profile.last > profile.first else ""


def percent(part: float, total: float) -> str:
    return f"{100 * part / total:.1f}%" if total else "0.0%"


class Table:
    """One of the tables: what its rows are, their order, and their lines."""

    what = "functions"
    has_cum = True

    def __init__(self, profile: Profile, stacks: Stacks, options: argparse.Namespace) -> None:
        self.profile, self.stacks, self.options = profile, stacks, options
        self.cum = self.cum_of_names()

    @staticmethod
    def name(frame: str) -> str:
        return name_of(frame)

    @classmethod
    def key(cls, stacks: Stacks) -> Callable[[Bucket], Any]:
        """What a bucket's row is called by."""
        return lambda bucket: cls.name(stacks.shown(bucket.stack)[0])

    def cum_of_names(self) -> Dict[Any, float]:
        """What each has in use together with those that it calls."""
        cum = defaultdict(int)
        for stack, used in self.profile.cum.items():
            for name in {self.name(frame) for frame in self.stacks.shown(stack)}:
                cum[name] += used
        return cum

    def names(self) -> List[Any]:
        """The rows with something in use, in their order."""
        rows, cum = self.profile.rows, self.cum
        firsts = {
            "flat": lambda name: (-rows[name].used, -cum[name]),
            "cum": lambda name: (-cum[name], -rows[name].used),
            "allocated": lambda name: (-rows[name].allocated, -rows[name].used),
            "grew": lambda name: (-rows[name].growth(), -rows[name].used),
        }
        first = firsts[self.options.sort]
        return sorted(self.all(), key=lambda name: (*first(name), name))

    def all(self) -> List[Any]:
        """The rows with something in use; of what was allocated, where that is asked for."""
        if self.options.sort == "allocated":
            return [name for name, row in list(self.profile.rows.items()) if row.allocs]
        return [name for name in self.cum if self.cum[name] > 0.5]

    def lines(self) -> Iterator[str]:
        profile, names = self.profile, self.names()
        shown = names[: self.options.top]
        total, so_far = profile.all.used, 0.0
        yield from heading(profile, self.stacks, names, shown, total, self.what, self.options)
        yield f"{'flat':>10} {'flat%':>6} {'sum%':>6}{self.middle_titles()}{growth_titles(profile)}  {self.what_title()}"
        for name in shown:
            row = profile.rows[name]
            so_far += row.used
            yield f"{size_text(row.used):>10} {percent(row.used, total):>6} {percent(so_far, total):>6}{self.middle(name, row, total)}{growth_text(profile, row)}  {self.title(name)}"
            yield from self.below(name)

    def middle_titles(self) -> str:
        return (f" {'cum':>10} {'cum%':>6}" if self.has_cum else "") + f" {'objects':>9} {'allocated':>10}"

    def middle(self, name: Any, row: Row, total: float) -> str:
        cum = f" {size_text(self.cum[name]):>10} {percent(self.cum[name], total):>6}" if self.has_cum else ""
        return f"{cum} {row.allocs - row.frees:>9.0f} {size_text(row.allocated):>10}"

    def what_title(self) -> str:
        return self.what[:-1]

    def title(self, name: Any) -> str:
        return name

    def below(self, _: Any) -> Iterable[str]:
        return ()

    def told(self) -> Dict[str, Any]:
        """The table for a script: all rows, with plain numbers."""
        profile, rows = self.profile, self.profile.rows
        return {
            "mark_end": profile.last, "first_mark_end": profile.first, "in_use": plain(sum(row.used for row in rows.values())), "allocated": plain(sum(row.allocated for row in rows.values())),
            "rate": 1 if self.options.trace else self.options.rate, "estimated_at": self.options.scale if self.options.scale > 1 else None, "rows_are": self.what,
            "rows": [self.told_row(name, rows[name]) for name in self.names()],
        }  # fmt: skip

    def told_row(self, name: Any, row: Row) -> Dict[str, Any]:
        cum = {"cum": self.cum[name]} if self.has_cum else {}
        counts = {"flat": row.used, **cum, "objects": row.allocs - row.frees, "allocs": row.allocs, "frees": row.frees, "allocated": row.allocated, "growth": row.growth(), "grew": row.grew}
        return {"name": self.title(name), **{field: plain(count) for field, count in counts.items()}}


class Lines(Table):
    """A row for each line of the program."""

    what = "lines"

    @staticmethod
    def name(frame: str) -> str:
        return frame


class Types(Table):
    """A row for each type."""

    what = "types"
    has_cum = False

    @classmethod
    def key(cls, stacks: Stacks) -> Callable[[Bucket], Any]:
        return lambda bucket: type_of(stacks.types.get(bucket.stack), stacks.frames.get(bucket.stack, []))

    def cum_of_names(self) -> Dict[Any, float]:
        return {name: row.used for name, row in self.profile.rows.items()}


class Buckets(Table):
    """A row for each stack and slot size."""

    what = "buckets"
    has_cum = False

    @classmethod
    def key(cls, stacks: Stacks) -> Callable[[Bucket], Any]:
        return lambda bucket: (bucket.stack, bucket.slot)

    def cum_of_names(self) -> Dict[Any, float]:
        return {name: row.used for name, row in self.profile.rows.items()}

    def middle_titles(self) -> str:
        return f" {'objects':>9} {'allocs':>9} {'frees':>9} {'slot':>8}"

    def middle(self, name: Any, row: Row, total: float) -> str:
        return f" {row.allocs - row.frees:>9.0f} {row.allocs:>9.0f} {row.frees:>9.0f} {name[1]:>8}"

    def what_title(self) -> str:
        return "stack"

    def title(self, name: Any) -> str:
        return f"{name[0]} {self.frames(name)[0]}"

    def told_row(self, name: Any, row: Row) -> Dict[str, Any]:
        return {**super().told_row(name, row), "stack": name[0], "slot": name[1], "frames": self.frames(name)}

    def frames(self, name: Any) -> List[str]:
        return self.stacks.shown(name[0])

    def below(self, name: Any) -> Iterable[str]:
        if self.options.frames:
            for frame in self.frames(name)[1:]:
                yield " " * (66 + len(growth_titles(self.profile))) + "    " + frame


def beside(profile: Profile, stacks: Stacks) -> str:
    """How much the goroutines' stacks had at the mark end, where a real run tells; or what their frames took of them, where a log does."""
    memory, frames = stacks.memory(profile.last), stacks.frames_bytes(profile.last)
    if memory:
        return f"; goroutine stacks are not in this: {size_text(memory.stacks * PAGE)}"
    return f"; goroutine stacks are not in this, of which frames take {size_text(frames)}" if frames else ""


def heading(profile: Profile, stacks: Stacks, names: List[Any], shown: List[Any], total: float, what: str, options: argparse.Namespace) -> Iterator[str]:
    """The two lines above the table."""
    rows = profile.rows
    part = sum(rows[name].used for name in shown)
    if options.trace:
        counted = "all objects of the trace"
    elif options.scale > 1:
        counted = f"estimated from the objects sampled at rate {options.scale}"
    elif options.scale == 1 or options.rate_is_known:
        counted = "all objects" if options.rate == 1 else f"the objects sampled at rate {options.rate}, as they are counted"
    else:
        counted = "the sampled objects as they are counted (all objects if the rate was 1; else see --scale)"
    yield f"Mark end {profile.last}{options.place}: {size_text(total)} in use, {size_text(profile.all.allocated)} allocated; {counted}{''.join(options.filters)}{beside(profile, stacks)}"
    yield f"Showing {len(shown)} of {len(names)} {what} {'' if options.sort == 'allocated' else 'in use'}".rstrip() + f", accounting for {size_text(part)}, {percent(part, total)} of {size_text(total)} total"
