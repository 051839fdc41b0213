"""The checker of recordings: a small heap, worked out by hand, that obeys each rule, and for each rule changes that break it."""

import unittest

from goheap_tools.inside.recording import (
    BLOCK, COUNTS, CUT, DROP, GIVE, LARGE, LEADS, LEND, MARK_END, OBJECT, POINTER_FREE, PULL, RIDER, SCAVENGED, TAKE, Begin, Block, Cache, Counts, Flush,
    Growth, MarkStart, Object, Pages, Run, Scavenging, Span, Sweep)  # fmt: skip
from goheap_tools.inside.truth import Checker, Untrue

AT = 0xC000000000
PAGE = 8192
ALL = (1 << 64) - 1
SECOND, LARGER = AT + PAGE, AT + 64 * PAGE
TINY = POINTER_FREE | LEADS


def counts(kind, ticket, generation, numbers):
    """Mallocs, frees, bytes allocated and freed, bytes of spans, of stacks and given back."""
    return Counts(kind, ticket, 0, 0, generation, 1, 1, 0, 0, *numbers, 0)


# A region of 512 pages, all scavenged. Processor 0 pulls 64 of them and cuts two spans; a large object of 40,000 bytes takes the 5 pages behind the
# block, and a stack the 4 behind it, which goes back and is scavenged. So 505 pages are scavenged at the mark end, and 7 are in use.
HEAP = [
    Begin(1, 0, 0, 1, 0, 0, 0),
    Growth(2, 0, AT, 512 * PAGE),
    Block(PULL, 3, 0, AT, ALL, ALL, 0),
    Run(CUT, 4, 0, AT, 1, 5, 0, 1),
    Cache(5, 0, AT, 5, 0, 0, 512),
    Object(OBJECT, 0, TINY, AT, 5, 1),
    Object(RIDER, 0, POINTER_FREE, AT + 5, 3, 1),
    Object(RIDER, 0, POINTER_FREE, AT + 8, 8, 1),
    Object(OBJECT, 0, TINY, AT + 16, 2, 1),
    Run(CUT, 6, 0, SECOND, 1, 8, 0, 1),
    Cache(7, 0, SECOND, 8, 0, 0, 256),
    Object(OBJECT, 0, 0, SECOND, 30, 2),
    Object(OBJECT, 0, 0, SECOND + 32, 32, 2),
    Run(TAKE, 8, 0, LARGER, 5, 1, 0, 5),
    Object(LARGE, 0, POINTER_FREE, LARGER, 40000, 3),
    Run(TAKE, 9, 0, LARGER + 5 * PAGE, 4, 0, 1, 4),
    Run(GIVE, 10, 0, LARGER + 5 * PAGE, 4, 0, 1, 0),
    Scavenging(LEND, 11, 1, LARGER + 5 * PAGE, 4),
    Scavenging(SCAVENGED, 12, 1, LARGER + 5 * PAGE, 4),
    MarkStart(13, 0, 1, 0),
    counts(MARK_END, 14, 2, (7, 2, 2 * 16 + 2 * 32 + 5 * PAGE, 0, 7 * PAGE, 0, 505 * PAGE)),
    Flush(15, 0, 0, False),
    Sweep(16, 0, AT, 512, 2, 2, 1, 5, 2, False, 1),
    Sweep(17, 0, SECOND, 256, 2, 2, 0, 8, 2, False, 0),
    Sweep(18, 0, LARGER, 1, 1, 1, 0, 1, 2, False, 0),
    Run(GIVE, 19, 0, LARGER, 5, 1, 0, 0),
    Run(GIVE, 20, 0, SECOND, 1, 8, 0, 0),
    Cache(21, 0, AT, 5, 1, 0, 512),
    Object(OBJECT, 0, TINY, AT + 16, 4, 1),
    Block(DROP, 22, 1, AT, ALL - 3, ALL - 3, 0),
    counts(COUNTS, 23, 0, (8, 6, 3 * 16 + 2 * 32 + 5 * PAGE, 16 + 64 + 5 * PAGE, PAGE, 0, 505 * PAGE)),
]
NUMBERS = {"Mallocs": "mallocs", "Frees": "frees", "bytes allocated": "allocated", "bytes freed": "freed", "HeapInuse": "heap_in_use",
           "StackInuse": "stack_in_use", "HeapReleased": "released"}  # fmt: skip


def at(ticket):
    return next(number for number, event in enumerate(HEAP) if getattr(event, "ticket", 0) == ticket)


def changed(number, **fields):
    return [*HEAP[:number], HEAP[number]._replace(**fields), *HEAP[number + 1 :]]


def without(*numbers):
    return [event for number, event in enumerate(HEAP) if number not in numbers]


def full_span():
    """Processor 0 caches a second span of class 5 while its first one is not full."""
    cut = Run(CUT, 0, 0, SECOND, 1, 5, 0, 1)
    return [*HEAP[:9], cut, Cache(0, 0, SECOND, 5, 0, 0, 512)]


def filled():
    """A span of 8 slots of 1024 bytes that is full is cached again."""
    cut = Run(CUT, 0, 0, AT, 1, 64, 0, 1)
    objects = [Object(OBJECT, 0, 0, AT + 1024 * slot, 1024, 1) for slot in range(8)]
    return [*HEAP[:3], cut, Cache(0, 0, AT, 64, 0, 0, 8), *objects, Flush(0, 0, 0, True), Cache(0, 0, AT, 64, 8, 8, 8)]


BROKEN = [
    ("an object is in a span", changed(5, address=AT + PAGE)),
    ("its class is the object's", changed(11, size=33)),
    ("its class is the object's", changed(11, flags=POINTER_FREE)),
    ("its processor has cached the span", changed(11, processor=1)),
    ("the span was swept before it is filled", [*HEAP[:21], Object(OBJECT, 0, 0, SECOND + 64, 32, 2)]),
    ("the lowest free slot is taken", changed(12, address=SECOND + 64)),
    ("the lowest free slot is taken", without(11)),
    ("a large object has a span of its own", changed(14, address=LARGER + PAGE)),
    ("a large object has a span of its own", changed(14, size=6 * PAGE)),
    ("a large object has a fresh span", [*HEAP[:15], HEAP[14]]),
    ("a rider is at its place in the block", changed(6, address=AT + 6)),
    ("a rider is at its place in the block", without(6)[:8] + [HEAP[6]]),
    ("an object leads where it cannot ride", changed(8, size=2)[:7] + [Object(OBJECT, 0, TINY, AT + 16, 2, 1)]),
    ("a cached span is of its class", changed(at(5), span_class=8)),
    ("a span is swept before it is cached", without(at(16))),
    ("a cached span has the objects that are told", changed(at(21), objects=2)),
    ("a span that is cached is not full", filled()),
    ("a span is left only when it is full", full_span()),
    ("a flushed cache is a processor's", changed(at(15), owner=65535)),
    ("a swept span is one in use", changed(at(17), address=SECOND + PAGE)),
    ("a swept span is one in use", changed(at(17), generation=4)),
    ("a span is swept once a cycle", [*HEAP[: at(17)], HEAP[at(16)]]),
    ("a span is swept once a cycle", without(at(15))),
    ("only objects stay", changed(at(16), stays=4)),
    ("a sweep finds the objects that were allocated", changed(at(16), before=3)),
    ("below the free index all slots are occupied", changed(at(16), free_index=3)),
    ("all spans are swept before the next mark end", [*HEAP[: at(17)], counts(MARK_END, 0, 4, (7, 3, 2 * 16 + 2 * 32 + 5 * PAGE, 16, 7 * PAGE, 0, 505 * PAGE))]),
    ("a run goes back as it was taken", changed(at(10), pages=3)),
    ("a run goes back as it was taken", changed(at(10), use=3)),
    ("a span that goes back is empty", changed(at(20), address=AT, span_class=5)),
    ("a span that goes back was swept in this cycle", [*HEAP[: at(10)], Run(CUT, 0, 0, AT + 2 * PAGE, 1, 8, 0, 1), *HEAP[at(10) : at(14)],
        counts(MARK_END, 0, 2, (7, 2, 2 * 16 + 2 * 32 + 5 * PAGE, 0, 8 * PAGE, 0, 504 * PAGE)), Run(GIVE, 0, 0, AT + 2 * PAGE, 1, 8, 0, 0)]),
    ("the region grows upwards without a gap", [*HEAP[:2], Growth(0, 0, AT + 513 * PAGE, 512 * PAGE)]),
    ("the region grows upwards without a gap", changed(1, bytes=500 * PAGE)),
    ("a run is taken at first fit", changed(at(8), address=LARGER + PAGE)),
    ("a taken run has the scavenged pages that are told", changed(at(8), scavenged=4)),
    ("a processor pulls when its block is empty", [*HEAP[:3], Block(PULL, 0, 0, LARGER, ALL, ALL, 0)]),
    ("the block of the least free page is pulled", changed(2, address=LARGER)),
    ("a block has all of its free pages, and their marks", changed(2, free=ALL - 1)),
    ("a block has all of its free pages, and their marks", changed(2, scavenged=ALL - 2)),
    ("a cut is at the first run of the block", changed(at(6), address=SECOND + PAGE)),
    ("a cut is at the first run of the block", [*HEAP[:3], HEAP[at(6)]]),
    ("a cut has fewer than 16 pages", [*HEAP[:3], Run(CUT, 0, 0, AT, 16, 1, 0, 16)]),
    ("a cut has the scavenged pages that are told", changed(at(6), scavenged=0)),
    ("a block goes back with what is left of it", changed(at(22), free=ALL - 1)),
    ("a block goes back with what is left of it", changed(at(22), owner=1)),
    ("the scavenger takes free, backed pages, and gives them back", changed(at(11), address=LARGER + 9 * PAGE)),
    ("the scavenger takes free, backed pages, and gives them back", without(at(11))),
    ("the scavenger's run lies in one chunk", [HEAP[0], Growth(0, 0, AT, 1024 * PAGE), Run(TAKE, 0, 0, AT, 600, 0, 1, 600), Run(GIVE, 0, 0, AT, 600, 0, 1, 0),
        Scavenging(LEND, 0, 0, AT + 511 * PAGE, 2)]),
    *((f"{name} is the runtime's", changed(at(14), **{field: getattr(HEAP[at(14)], field) + 1})) for name, field in NUMBERS.items()),
    ("Mallocs is the runtime's", without(28)),
    ("Frees is the runtime's", [*changed(at(17), stays=1, after=1)[: at(20)], *HEAP[at(21) : at(22)], HEAP[-1]]),
    ("HeapReleased is the runtime's", without(at(11), at(12))),
    ("no such event is known here", [*HEAP, ()]),
]  # fmt: skip

# The same heap where the recording begins at the mark end: it stands as events, and goes on as it did.
STANDING = [
    Begin(1, 0, 1, 1, 0, 1, 0),
    Span(2, 0, AT, 1, 5, 0, 512, 2, 2, 0, 3),
    Span(3, 0, SECOND, 1, 8, 0, 256, 2, 2, 0, 3),
    Span(4, 0, LARGER, 5, 1, 0, 1, 1, 1, None, 1),
    Block(BLOCK, 5, 0, AT, ALL - 3, ALL - 3, 0),
    Pages(6, 0, AT, (1 << 69) - 1, (1 << 512) - (1 << 69)),
    *HEAP[at(14) :],
]


class Rules(unittest.TestCase):
    def test_the_heap_obeys_them(self):
        checker = Checker().all(HEAP)
        self.assertEqual((checker.compared, checker.totals.mallocs, checker.last), (2, 8, HEAP[-1]))

    def test_each_of_them_is_broken_by_a_change(self):
        for rule, events in BROKEN:
            with self.subTest(rule=rule):
                with self.assertRaises(Untrue) as caught:
                    Checker().all(events)
                self.assertIn(rule, str(caught.exception))

    def test_no_rule_is_without_a_change_that_breaks_it(self):
        tried = set(Checker().all(HEAP).rules) | set(Checker().all(STANDING).rules)
        broken = {rule for rule, _ in BROKEN} | {rule for rule, _ in STANDING_BROKEN}
        self.assertEqual([rule for rule in tried if not any(rule.startswith(prefix) for prefix in broken)], [])


STANDING_BROKEN = [
    ("a standing span has the slots of its class", [STANDING[0], STANDING[1]._replace(slots=511)]),
    ("the standing pages rise", [*STANDING[:6], STANDING[5]]),
    ("what goes back was in use", [*STANDING[:5], STANDING[5]._replace(taken=0), *STANDING[6:]]),
    ("the standing objects have the bytes that the runtime counted", [STANDING[0], STANDING[1]._replace(occupied=1), *STANDING[2:]]),
]


class Standing(unittest.TestCase):
    def test_it_goes_on_from_there(self):
        checker = Checker().all(STANDING)
        self.assertEqual((checker.compared, checker.totals.mallocs), (2, 8))

    def test_what_is_wrong_there(self):
        for rule, events in STANDING_BROKEN:
            with self.subTest(rule=rule):
                with self.assertRaises(Untrue) as caught:
                    Checker().all(events)
                self.assertIn(rule, str(caught.exception))


if __name__ == "__main__":
    unittest.main()
