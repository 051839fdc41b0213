"""Whether a trace, a report or a heap profile belongs to a stacks file, by what the stacks file's first lines say of its recording.

An older stacks file has no first lines; nothing is asked then.
"""

import hashlib
from collections import Counter
from typing import Iterable, NoReturn, Optional, Tuple

from goheap_tools.formats.journal import Miss
from goheap_tools.formats.report import Report
from goheap_tools.formats.stacks import Stacks
from goheap_tools.formats.traces import Trace
from goheap_tools.heap.classes import SLOTS, slot_of
from goheap_tools.tool import Unusable

# Samples that chance alone can make.
MANY = 20
# What a stacks file and what is held against it are called.
Names = Tuple[str, str]


def refuse(stacks: Stacks, names: Names, why: str) -> NoReturn:
    program = stacks.header.get("program")
    of = f", of {program}" if program else ""
    raise Unusable(f"{names[1]} and {names[0]} are of two recordings: {why}{of}")


def check_count(stacks: Stacks, names: Names, what: str, found: int) -> None:
    """Refuses another number of something than the recording has."""
    told = stacks.number(what)
    if told is not None and told != found:
        refuse(stacks, names, f"{found} {what}, and by the stacks {told}")


def told_slots(stacks: Stacks) -> Optional[Counter]:
    """The recording's objects by slot size, or nothing."""
    told = stacks.header.get("slots")
    return None if told is None else Counter({int(slot): int(count) for slot, count in (pair.split(":") for pair in told.split())})


def slots_of_report(report: Report) -> Counter:
    """How many objects, placed or missed, a report has in small slots of each size; and how many large ones, under 0."""
    found = Counter()
    for size_class, mallocs, _ in report.totals:
        found[SLOTS[size_class]] += mallocs
    for line in report.journal:
        if isinstance(line, Miss):
            found[SLOTS[line.span_class // 2]] += 1
    return found


def of_report(stacks: Stacks, report: Report, names: Names) -> None:
    """Refuses a report that is not of the recording. `names` are those of the stacks file and of the report."""
    check_count(stacks, names, "objects", len(report.addresses))
    told = told_slots(stacks)
    if told is None:
        return
    large = sum(count for slot, count in told.items() if slot not in SLOTS)
    told = Counter({slot: count for slot, count in told.items() if slot in SLOTS}) + Counter({0: large})
    found = +slots_of_report(report)
    for slot in sorted(told | found):
        if told[slot] != found[slot]:
            size = f"of {slot} bytes" if slot else f"above {SLOTS[-1]} bytes"
            refuse(stacks, names, f"{found[slot]} objects in slots {size}, and by the stacks {told[slot]}")


def samples_of(report: Report) -> Counter:
    """How many objects the profile of the last mark end counts, by the bytes of their slots."""
    last = max((bucket.mark_end for bucket in report.buckets), default=0)
    found = Counter()
    for bucket in report.buckets:
        found[bucket.slot] += bucket.allocs if bucket.mark_end == last else 0
    return found


def of_rate(stacks: Stacks, report: Report, names: Names) -> None:
    """Refuses a report whose profile is of another rate than the recording: at rate 1 it counts each object that is placed before the last mark
    end; above that, about one in so many bytes, and no four times as many."""
    rate, behind = stacks.number("rate"), stacks.number("behind")
    sampled, placed = samples_of(report), sum(total.mallocs for total in report.totals)
    count = sum(sampled.values())
    if not rate or behind is None or not stacks.number("mark ends"):
        return
    if rate == 1 and not placed - behind <= count <= placed:
        refuse(stacks, names, f"the profile counts {count} of {placed} objects, {behind} of which came behind the last mark end, and at the stacks' rate of 1 each counts")
    expected = sum(min(SLOTS[total.size_class] or rate, rate) * total.mallocs for total in report.totals) / rate
    if rate > 1 and count > MANY + 4 * expected:
        refuse(stacks, names, f"the profile counts {count} objects, and at the stacks' rate of {rate} there would be about {expected:.0f}")


def of_trace(stacks: Stacks, trace: Trace, names: Names) -> None:
    """Refuses a trace that is not the recording's. `names` are those of the stacks file and of the trace."""
    check_count(stacks, names, "objects", len(trace.sizes))
    check_count(stacks, names, "mark ends", trace.mark_ends)
    told, found = told_slots(stacks), Counter()
    for size, count in Counter(trace.sizes).items():
        if size:
            found[slot_of(size)] += count
    if told is not None and told != found:
        refuse(stacks, names, "the objects have other sizes")


def of_trace_file(stacks: Stacks, path: str) -> Optional[bool]:
    """Whether the file's text is that of the recording's trace; nothing where the stacks do not tell."""
    told = stacks.header.get("digest")
    if told is None:
        return None
    digest = hashlib.sha1()
    with open(path, "rb") as file:
        while piece := file.read(1 << 20):
            digest.update(piece)
    return digest.hexdigest() == told


def of_heap(stacks: Stacks, rate: int, numbers: Iterable[int], names: Names) -> None:
    """Refuses a heap profile that is not of the recording: another rate, or a stack that it does not have. `names` are those of the stacks
    file and of the profile."""
    told = stacks.number("rate")
    if told is not None and told != rate:
        refuse(stacks, names, f"rate {rate}, and by the stacks {told}")
    strange = sorted(number for number in numbers if number not in stacks.frames)
    if stacks.header and strange:
        refuse(stacks, names, f"stack {strange[0]} is not among the stacks")
