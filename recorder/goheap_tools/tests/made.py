"""Recordings that are made for tests: traces with stacks, of any length."""

import random
import subprocess
import sys
from collections import Counter

from goheap_tools.heap.classes import BASE, PAGE, PAGES, SLOTS, slot_of
from goheap_tools.tests.testing import HERE

SIZES = (5, 8, 16, 24, 32, 48, 60, 96, 128, 250, 512, 1000, 2048, 5000)
WEIGHTS = (4, 6, 9, 9, 8, 6, 5, 4, 3, 2, 1, 0.5, 0.2, 0.05)
PACKAGES = ("main", "example.com/shop/order", "example.com/shop/mail", "encoding/csv")


def made_stacks(count, words):
    """The text of a stacks file: stacks of some functions of each package, each in the same order as before."""
    lines = ["# goheap stacks 2\n", "# program\tshop\n", "# rate\t1\n"]
    for number in range(count):
        frames = [f"{PACKAGES[words.randrange(4)]}.f{words.randrange(12)} a.go:{words.randrange(1, 90)}" for _ in range(words.randrange(1, 6))]
        lines.append("\t".join([str(number), ("main.order", "string", "main.item")[number % 3], *frames, "main.main main.go:7"]) + "\n")
    return "".join(lines)


def ranges(numbers):
    """The `m` lines of these objects."""
    lines, begin, end = [], None, None
    for number in [*numbers, None]:
        if end is not None and number == end + 1:
            end = number
            continue
        if end is not None:
            lines.append(f"m {begin} {end}\n")
        begin = end = number
    return lines


def made_trace(objects, mark_ends, version=1, stacks=40):
    """The texts of a trace and of its stacks: most objects die at once, some later, and those of a few stacks never."""
    words = random.Random(objects + version)
    lines, alive, born = [f"goheap {version}\nheap 16 procs 2 rate 1 seed 1 goal 8192\n"], [], []
    for number in range(objects):
        stack = words.randrange(stacks)
        size = words.choices(SIZES, WEIGHTS)[0] if number % 701 else 40000
        lines.append(f"a {words.randrange(2)} {size} {'sn'[stack % 2]} {stack}\n")
        born.append((number, stack))
        if (number + 1) % (objects // mark_ends) == 0:
            alive = [one for one in alive if one[1] == 3 or words.random() < 0.7] + [one for one in born if one[1] == 3 or words.random() < 0.1]
            lines += ["gc 4194304\n", *ranges([one for one, _ in alive])]
            born = []
    return "".join([*lines, "end\n"]), made_stacks(stacks, words)


def modelled(trace):
    """The report of a trace by the plain model."""
    ran = subprocess.run([sys.executable, f"{HERE}/../model/run.py", "--each"], input=trace, capture_output=True, text=True, check=True)
    return ran.stdout


class Spans:
    """Where one processor puts objects of which none dies: in a span of their class up to its end, then in a new one."""

    def __init__(self):
        self.journal, self.pages, self.current, self.spans = [], 0, {}, []

    def put(self, size, plain):
        """Returns the span and the address of the next object of this size."""
        size_class = next(one for one in range(1, len(SLOTS)) if SLOTS[one] >= size)
        key, slots = 2 * size_class + plain, PAGES[size_class] * PAGE // SLOTS[size_class]
        span, used = self.current.get(key, (-1, slots))
        if used == slots:
            span, used = len(self.spans), 0
            self.journal.append(f"j {len(self.journal)} 0 take {self.pages} {PAGES[size_class]} {key}\n")
            self.spans.append((self.pages, PAGES[size_class]))
            self.pages += PAGES[size_class]
        self.current[key] = span, used + 1
        return span, BASE + self.spans[span][0] * PAGE + used * SLOTS[size_class]


def long_recording(objects, stacks=5000):
    """The texts of a trace, its report and its stacks, written as they must be, without a run: one processor, one mark end, behind which
    each fifth object lives, and those of some stacks."""
    words, spans = random.Random(objects), Spans()
    trace, report = ["goheap 1\nheap 128 procs 1 rate 1 seed 1 goal 65536\n"], []
    kept, held, found, buckets = [], Counter(), Counter(), {}
    totals = {}
    picks = words.choices(range(len(SIZES)), WEIGHTS, k=objects)
    for number in range(objects):
        stack, size = words.randrange(stacks), SIZES[picks[number]]
        trace.append(f"a 0 {size} {'sn'[stack % 2]} {stack}\n")
        span, address = spans.put(size, stack % 2)
        report.append(f"o {number} {address:#x}\n")
        lives = number % 5 == 0 or stack % 50 == 7
        found[span] += 1
        held[span] += lives
        slot = slot_of(size)
        for counts, key in ((buckets, (stack, slot)), (totals, SLOTS.index(slot))):
            counts.setdefault(key, [0, 0])[0] += 1
            counts[key][1] += not lives
        if lives:
            kept.append(number)
    trace += ["gc 4194304\n", *ranges(kept), "end\n"]
    for span, (page, pages) in enumerate(spans.spans):
        if not held[span]:
            spans.journal.append(f"j {len(spans.journal)} 1 give {page} {pages}\n")
    report += spans.journal
    report += [f"s 1 {page} {held[span]} {found[span] - held[span]}\n" for span, (page, _) in enumerate(spans.spans)]
    report += [f"t {one} {mallocs} {frees}\n" for one, (mallocs, frees) in sorted(totals.items())]
    report += [f"p 1 {stack} {slot} {allocs} {frees}\n" for (stack, slot), (allocs, frees) in sorted(buckets.items())]
    return "".join(trace), "".join([*report, "end\n"]), made_stacks(stacks, words)
