"""Recordings that are stored, one of Go 1.19 and one of Go 1.21, so that real runs are judged where there is no Go: their reports obey the
rules, and with one event changed, or left out, they break one, which `explain` tells in words."""

import glob
import lzma
import os
import re
import tempfile
import unittest

from goheap_tools.heap.classes import SLOTS
from goheap_tools.inside import events as form
from goheap_tools.inside.pair import pair_of, report_lines, trace_lines
from goheap_tools.inside.recording import Recording
from goheap_tools.inside.truth import Checker
from goheap_tools.tests import verdict
from goheap_tools.tests.testing import HERE
from goheap_tools.tool import Unusable

STORED = sorted(glob.glob(os.path.join(HERE, "data", "real-*.heap.xz")))
MOST = 300_000  # bytes of all, packed


class Events:
    """The events of a recording that stood in a file, as `pair_of` reads them."""

    def __init__(self, path, events):
        self.path, self.list = path, events

    def events(self):
        return iter(self.list)

    def changed(self, at, event=None):
        """The same with another event there, or none."""
        return Events(self.path, [*self.list[:at], *([event] if event else []), *self.list[at + 1 :]])

    def texts(self):
        pair = pair_of(self)
        return "".join(trace_lines(pair)), "".join(report_lines(pair))

    def find(self, holds):
        """The first event that is such a one, by its place."""
        return next(at for at, event in enumerate(self.list) if holds(event))


def unpacked(path):
    with lzma.open(path) as packed, tempfile.NamedTemporaryFile(suffix=".heap") as file:
        file.write(packed.read())
        file.flush()
        with Recording(file.name) as recording:
            return Events(os.path.basename(path), list(recording.events()))


class Stored(unittest.TestCase):
    @classmethod
    def setUpClass(cls):
        print(f"the stored real runs are {verdict.name()}", flush=True)
        cls.recordings = [unpacked(path) for path in STORED]

    def test_there_is_one_of_each_go_and_they_are_small(self):
        self.assertEqual([os.path.basename(path) for path in STORED], ["real-1.19.heap.xz", "real-1.21.heap.xz"])
        self.assertLess(sum(map(os.path.getsize, STORED)), MOST)

    def test_each_is_sound(self):
        for recording in self.recordings:
            with self.subTest(recording=recording.path):
                trace, report = recording.texts()
                self.assertEqual(verdict.verdict(trace, report)[0], "sound")
                self.assertEqual(trace.split("\n", 1)[0], "goheap 4")
                for line in ("take", "give", "pull", "cut", "hold", "keep", "free", "lend", "scav", "drop"):
                    self.assertIn(f" {line} ", report)
                self.assertRegex(trace, r"(?m)^d \d+ \d+$")
                self.assertRegex(trace, r"(?m)^f \d+$")

    def test_each_event_is_one_that_the_runtime_may_tell(self):
        for recording in self.recordings:
            with self.subTest(recording=recording.path):
                self.assertGreater(Checker().all(recording.events()).compared, 3)

    # Single changes.

    def refused(self, recording, at, event, rules):
        """The report with this event changed breaks one of the rules, and `explain` has more to say than where."""
        return self.broken(*recording.changed(at, event).texts(), rules)

    def broken(self, trace, report, rules):
        found, sentences = verdict.verdict(trace, report)
        self.assertIn(found.rpartition(" ")[2], map(str, rules), found)
        self.assertGreater(len(sentences), 2, sentences)
        self.assertRegex(sentences[0], r"^report line \d+ breaks rule \d+, [a-z ]+: `[ojstp] ")
        return sentences

    def test_one_bit_of_a_sweep(self):
        """An object that lives is swept away: its slot is free, and not taken as the next one. One that died stays, and its slot is taken."""
        for recording in self.recordings:
            at, slot = self.swept(recording, lives=True)
            sweep = recording.list[at]
            with self.subTest(recording=recording.path, bit="cleared"):
                self.assertIn("lowest", " ".join(self.refused(recording, at, sweep._replace(stays=sweep.stays & ~(1 << slot)), (6,))))
            at, slot = self.swept(recording, lives=False)
            sweep = recording.list[at]
            with self.subTest(recording=recording.path, bit="set"):
                told = self.refused(recording, at, sweep._replace(stays=sweep.stays | 1 << slot), (4, 5))
                self.assertIn("Object ", " ".join(told))

    def swept(self, recording, lives):
        """A sweep, and a slot of its span that an object has which it keeps, below the one that is taken next; or one that it frees, and that is
        taken next."""
        following = {}
        for at in range(len(recording.list) - 1, -1, -1):
            event = recording.list[at]
            if type(event) is form.Object and event.kind == form.OBJECT:
                following[event.address // form.PAGE] = event
            if type(event) is form.Sweep and event.span_class >= 2:
                taken = following.pop(event.address // form.PAGE, None)
                if taken is None:
                    continue
                slot_of = lambda one: (one.address - event.address) // SLOTS[event.span_class // 2]
                slot, known = slot_of(taken), {slot_of(one) for one in recording.list[:at] if self.is_beside(one, event)}
                if lives and slot and event.stays >> slot - 1 & 1 and slot - 1 in known:
                    return at, slot - 1
                if not lives and not event.stays >> slot & 1 and slot in known:
                    return at, slot
        raise AssertionError("no such sweep")

    def is_beside(self, one, span):
        """Whether this is an object in the first page of the span."""
        return type(one) is form.Object and one.kind == form.OBJECT and one.address // form.PAGE == span.address // form.PAGE

    def test_one_address(self):
        for recording in self.recordings:
            at = recording.find(lambda event: type(event) is form.Object and event.kind == form.OBJECT and event.size == 32)
            with self.subTest(recording=recording.path):
                event = recording.list[at]
                told = self.refused(recording, at, event._replace(address=event.address + 32), (5, 6))
                self.assertIn("32", " ".join(told))

    def test_one_page_of_a_take(self):
        for recording in self.recordings:
            at = recording.find(lambda event: type(event) is form.Run and event.kind == form.TAKE and event.use == 0 and event.span_class < 2)
            with self.subTest(recording=recording.path):
                event = recording.list[at]
                self.refused(recording, at, event._replace(pages=event.pages + 1), (2, 4))
                trace, report = recording.texts()
                number, cycle, page = re.search(r"(?m)^j (\d+) (\d+) take (\d+) ", report).groups()
                line = f"j {number} {cycle} take "
                told = self.broken(trace, report.replace(f"{line}{page} ", f"{line}{int(page) + 1} "), (2,))
                self.assertIn("first fit", " ".join(told))
                self.assertIn(f"`take {page} ", " ".join(told))

    def test_what_cannot_be_is_no_pair(self):
        """A span that is taken a page behind its object."""
        recording = self.recordings[0]
        at = recording.find(lambda event: type(event) is form.Run and event.kind == form.TAKE and event.use == 0 and event.span_class < 2)
        event = recording.list[at]
        with self.assertRaisesRegex(Unusable, "does not fit what came before it: Object"):
            recording.changed(at, event._replace(address=event.address + form.PAGE)).texts()

    def test_the_class_of_an_allocation(self):
        for recording in self.recordings:
            at = recording.find(lambda event: type(event) is form.Object and event.kind == form.OBJECT and event.size == 32)
            with self.subTest(recording=recording.path):
                event = recording.list[at]
                self.assertIn("64 bytes", " ".join(self.refused(recording, at, event._replace(size=64), (4,))))
                told = self.refused(recording, at, event._replace(flags=event.flags ^ form.POINTER_FREE), (4,))
                self.assertIn("pointers", " ".join(told))

    def test_a_give_that_is_left_out(self):
        for recording in self.recordings:
            at = recording.find(lambda event: type(event) is form.Run and event.kind == form.GIVE and event.use == 0)
            with self.subTest(recording=recording.path):
                self.refused(recording, at, None, (2, 7))
