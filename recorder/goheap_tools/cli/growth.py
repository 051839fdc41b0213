"""`leaks --base OLD NEW`: what grew from one recording to another one, and whether by more than it may."""

import argparse
import json
import re
from typing import Any, Dict, Iterator, List, Optional, Tuple

from goheap_tools.formats import companions
from goheap_tools.formats.recordings import recording_at
from goheap_tools.formats.report import report_in
from goheap_tools.formats.stacks import Stacks, stack_file
from goheap_tools.formats.traces import trace_in
from goheap_tools.heap.difference import Difference, differences, in_use, ratio_of
from goheap_tools.heap.profile import Profile, buckets_of_trace
from goheap_tools.tool import Unusable, plain, size_text

UNITS = {"": 1, "B": 1, "KB": 1 << 10, "KIB": 1 << 10, "MB": 1 << 20, "MIB": 1 << 20, "GB": 1 << 30, "GIB": 1 << 30}
# A limit: so many bytes, or so much of what is in use in the base.
Limit = Tuple[float, bool]


def limit(text: str) -> Limit:
    """An argument's type: bytes, as 64KB or 1.5MB, or a part, as 5%."""
    found = re.fullmatch(r"([0-9]+(?:\.[0-9]+)?) ?(%|[A-Za-z]*)", text)
    unit = found.group(2).upper() if found else "?"
    if not found or unit != "%" and unit not in UNITS:
        raise argparse.ArgumentTypeError(f"{text!r} is neither bytes, as 64KB, nor a part of what is in use in the base, as 5%")
    return float(found.group(1)) * UNITS.get(unit, 1), unit == "%"


def bytes_of(most: Limit, base: Profile) -> float:
    """The bytes by which a row may grow."""
    return in_use(base) * most[0] / 100 if most[1] else most[0]


def profile_at(path: str, options: argparse.Namespace) -> Profile:
    """The rows of a recording as of its last mark end: all objects of its trace are counted, but those that found no room by its report."""
    files = recording_at(path)
    stacks = stack_file(files.stacks) if files.stacks else Stacks({}, {}, {})
    if not stacks.frames:
        raise Unusable(f"{path}: without a stacks file nothing tells which functions of two recordings are the same")
    trace = trace_in(files.trace)
    companions.of_trace(stacks, trace, (files.stacks or "", trace.name))
    report = report_in(files.report) if files.report else None
    if report and len(report.addresses) != len(trace.sizes):
        raise Unusable(f"{files.report} has {len(report.addresses)} objects, and {files.trace} has {len(trace.sizes)}: it is no report of this trace")
    if not trace.mark_ends:
        raise Unusable(f"{files.trace}: there was no mark end, so nothing tells what stays alive")
    return Profile(buckets_of_trace(trace, report.addresses if report else None), options.table.key(stacks), 0)


def signed(size: float) -> str:
    return f"{'+' if size > 0 else ''}{size_text(size)}"


def lines(rows: List[Difference], profile: Profile, base: Profile, options: argparse.Namespace) -> Iterator[str]:
    what = options.table.what
    yield f"{options.base}, mark end {base.last}: {size_text(in_use(base))} in use; {options.report}, mark end {profile.last}: {size_text(in_use(profile))} in use; all objects of the traces"
    yield f"Showing {min(options.top, len(rows))} of {len(rows)} {what}; normalised: less {ratio_of(profile, base):.3f} times the base, as the objects allocated go"
    yield f"{'base':>10} {'now':>10} {'change':>11} {'normalised':>11} {'objects':>9}  {what[:-1]}"
    for row in rows[: options.top]:
        is_new = "  (new)" if not row.base else "  (gone)" if not row.live else ""
        yield f"{size_text(row.base):>10} {size_text(row.live):>10} {signed(row.change()):>11} {signed(row.normalised):>11} {row.objects - row.base_objects:>+9.0f}  {row.name}{is_new}"


def told(rows: List[Difference], profile: Profile, base: Profile, options: argparse.Namespace, over: List[Difference]) -> Dict[str, Any]:
    """The rows for a script."""
    fields = [{**{field: value if field == "name" else plain(value) for field, value in row._asdict().items()}, "change": plain(row.change())} for row in rows]
    return {"base": {"recording": options.base, "mark_end": base.last, "in_use": plain(in_use(base))}, "recording": options.report, "mark_end": profile.last, "in_use": plain(in_use(profile)), "ratio": ratio_of(profile, base),
            "rows_are": options.table.what, "rows": fields, "over": [row.name for row in over]}  # fmt: skip


def compare(options: argparse.Namespace, out: Any) -> int:
    """Writes what grew. Returns 1 where a row grew by more than it may."""
    base, profile = profile_at(options.base, options), profile_at(options.report, options)
    rows = differences(profile, base)
    most: Optional[float] = bytes_of(options.fail_over, base) if options.fail_over else None
    over = [row for row in rows if most is not None and row.change() > most]
    if options.json:
        out.write(json.dumps(told(rows, profile, base, options, over), indent=1) + "\n")
    else:
        for line in lines(rows, profile, base, options):
            out.write(line + "\n")
        for row in over:
            out.write(f"{row.name} grew by {size_text(row.change())}, more than {size_text(most or 0)}\n")
    return 1 if over else 0
