"""The reader of recordings: files made here word by word after docs/recording-format.md, whole ones and damaged ones."""

import os
import shutil
import struct
import tempfile
import unittest

from goheap_tools.inside.recording import (
    LARGE, OBJECT, SAMPLED, Begin, Block, Cache, Counts, Damaged, Flush, Growth, MarkStart, Object, Pace, Pages, Processors, Recording, Run, Scavenging,
    Span, Stack, Stop, Sweep)  # fmt: skip

CHUNK = 65536
TEXT = 0x401000


def first(kind, a=0, flags=0):
    return kind | flags << 8 | a << 16


def header(**changed):
    words = [int.from_bytes(b"goheaprc", "little"), 2, CHUNK, 42, 1, 1, 0, 0, 1 << 33, TEXT, TEXT + 4096, 0x500000, 0x600000, 10, 20, 30, 1, 0, 0, 128, 1000, 0]
    words += [0] * (8192 - len(words))
    for place, text in ((32, b"go1.21.13"), (48, b"/bin/a program")):
        for i in range(0, len(text), 8):
            words[place + i // 8] = int.from_bytes(text[i : i + 8], "little")
    for name, value in changed.items():
        words[int(name[1:])] = value
    return words


def chunk(processor, before, *events, ticket=1):
    words = [192 | processor << 16, ticket, 5, before]
    for event in events:
        words += event
    return words + [0] * (8192 - len(words))


BEGIN = (first(16), 1, 7, 0, 4, 512)
# An event of each kind, with what it says.
EVENTS = [
    ((first(16, flags=1), 2, 7, 3, 4, 512), Begin(2, 3, 1, 7, 3, 4, 512)),
    ((first(18), 3, 8, 1000), MarkStart(3, 3, 8, 1000)),
    ((first(19, 6, 2), 4, *range(100, 112)), Counts(19, 4, 3, 2, 6, *range(100, 112))),
    ((first(20, 0xC000002000, 1), 5, 70 | 3 << 16 | 5 << 32 | 2 << 48, 9 | 6 << 32, 1, 1 << 5), Sweep(5, 3, 0xC000002000, 70, 3, 5, 2, 9, 6, True, 1 | 1 << 69)),
    ((first(21, flags=1), 6, 1, 2, 3, 4, 0), Pace(6, 3, True, 1, 2, 3, 4, 0)),
    ((first(22, 0xC000080000), 7, 5, 4), Block(22, 7, 3, 0xC000080000, 5, 4, 3)),
    ((first(23, 0xC000080000), 8, 5, 4, 1), Block(23, 8, 3, 0xC000080000, 5, 4, 1)),
    ((first(24, 0xC000004000), 9, 2 | 9 << 32 | 0 << 40, 1), Run(24, 9, 3, 0xC000004000, 2, 9, 0, 1)),
    ((first(25, 0xC000004000), 10, 2 | 0 << 32 | 1 << 40, 2), Run(25, 10, 3, 0xC000004000, 2, 0, 1, 2)),
    ((first(26, 0xC000004000), 11, 2 | 1 << 40), Run(26, 11, 3, 0xC000004000, 2, 0, 1, 0)),
    ((first(27, 0xC000000000), 12, 4 << 20), Growth(12, 3, 0xC000000000, 4 << 20)),
    ((first(28, 0xC000004000), 13, 7), Scavenging(28, 13, 3, 0xC000004000, 7)),
    ((first(29, 0xC000004000), 14, 7), Scavenging(29, 14, 3, 0xC000004000, 7)),
    ((first(30, 0xC000002000), 15, 9 | 5 << 16 | 3 << 32 | 70 << 48), Cache(15, 3, 0xC000002000, 9, 5, 3, 70)),
    ((first(31, flags=1), 16, 2), Flush(16, 3, 2, True)),
    ((first(32), 17, *range(12)), Counts(32, 17, 3, 0, 0, *range(12))),
    ((first(33), 18, 4, 2), Processors(18, 3, 4, 2)),
    ((first(48, 0xC000002000), 19, 1 | 9 << 32, 70 | 3 << 16 | 5 << 32, 4, 31, 1 << 5), Span(19, 3, 0xC000002000, 1, 9, 0, 70, 3, 5, 3, 31 | 1 << 69)),
    ((first(49, 0xC000000000), 20, *range(16)), Pages(20, 3, 0xC000000000, sum(i << 64 * i for i in range(8)), sum(8 + i << 64 * i for i in range(8)))),
    ((first(50, 0xC000080000), 21, 5, 4, 1), Block(50, 21, 3, 0xC000080000, 5, 4, 1)),
    ((first(1, 0xC000002010, SAMPLED), 17 | 24 << 32), Object(OBJECT, 3, SAMPLED, 0xC000002010, 24, 17)),
    ((first(2, 0xC000002011, 1), 17 | 3 << 32), Object(2, 3, 1, 0xC000002011, 3, 17)),
    ((first(3, 0x580000, 9), 0), Object(3, 3, 9, 0x580000, 0, 0)),
    ((first(4, 0xC000100000, 1), 17, 1 << 39), Object(LARGE, 3, 1, 0xC000100000, 1 << 39, 17)),
    ((first(17), 22, 9), Stop(22, 3, 9)),
]  # fmt: skip


class Files(unittest.TestCase):
    def setUp(self):
        self.folder = tempfile.mkdtemp(prefix="goheap recording ")
        self.addCleanup(shutil.rmtree, self.folder)
        self.path = os.path.join(self.folder, "one")

    def write(self, *chunks, more=b""):
        with open(self.path, "wb") as file:
            for words in chunks:
                file.write(struct.pack("<8192Q", *words))
            file.write(more)
        return self.path

    def all(self, *chunks, **fields):
        fields = {"w4": len(chunks) + 1, "w5": 1000, **fields}
        with Recording(self.write(header(**fields), *chunks)) as recording:
            events = list(recording.events())
            self.after = (recording.missing, recording.left_out)
            self.stacks = recording.stacks()
        return events

    def refused(self, *chunks, **fields):
        with self.assertRaises(Damaged) as caught:
            self.all(*chunks, **fields)
        said = str(caught.exception)
        self.assertTrue(said.startswith(self.path + ": "), said)
        return said.removeprefix(self.path + ": ")


class Whole(Files):
    def test_each_kind_of_event(self):
        events = self.all(chunk(3, 0, BEGIN, *(words for words, _ in EVENTS)))
        self.assertEqual(events, [Begin(1, 3, 0, 7, 0, 4, 512), *(event for _, event in EVENTS)])
        self.assertEqual(self.after, (23, 0))

    def test_the_header(self):
        with Recording(self.write(header(w4=1, w7=1, w16=10, w17=2, w18=1))) as recording:
            told = recording.header
        self.assertEqual((told.process, told.state, told.full, told.every, told.from_mark_end, told.by_signal), (42, 1, True, 10, 2, True))
        self.assertEqual((told.text, told.types, told.go_version, told.program), ((TEXT, TEXT + 4096), (0x500000, 0x600000), "go1.21.13", "/bin/a program"))
        self.assertEqual((told.greatest_frames, told.greatest_stack, told.size), (128, 1000, 1 << 33))

    def test_tickets_order_what_processors_did(self):
        one = chunk(0, 0, BEGIN, (first(1, 16), 1), (first(33), 4, 1, 2), (first(1, 32), 2))
        other = chunk(1, 0, (first(3, 8), 0), (first(31), 2, 1), (first(1, 48), 3), (first(31), 3, 1))
        third = chunk(0, 1, (first(1, 64), 4), (first(31), 5, 1), ticket=5)
        told = [(getattr(event, "ticket", None), getattr(event, "address", None)) for event in self.all(one, other, third)]
        self.assertEqual(told, [(1, None), (None, 16), (None, 8), (2, None), (None, 48), (3, None), (4, None), (None, 32), (None, 64), (5, None)])

    def test_the_recording_ends_where_a_ticket_is_missing(self):
        one = chunk(0, 0, BEGIN, (first(31), 2, 0), (first(1, 16), 1), (first(31), 5, 0), (first(1, 32), 1))
        other = chunk(1, 0, (first(31), 4, 0), (first(1, 48), 1), (first(5, 9), 7, 1, 0x10))
        events = self.all(one, other)
        self.assertEqual([getattr(event, "ticket", 0) for event in events], [1, 2, 0])
        self.assertEqual(self.after, (3, 4))
        self.assertEqual(list(self.stacks), [9])

    def test_what_stands_between_a_stop_and_a_beginning_is_left_out(self):
        one = chunk(0, 0, BEGIN, (first(17), 2, 9), (first(31), 3, 0), (first(1, 16), 1), (first(16, 0, 2), 4, 1, 2, 3, 4), (first(1, 32), 1))
        self.assertEqual([type(event) for event in self.all(one)], [Begin, Stop, Begin, Object])

    def test_stacks_share_their_outer_frames(self):
        one = chunk(2, 0, BEGIN, (first(5, 7), 0x500040, 3, 0x11 | 0x22 << 32, 0x33), (first(5, 8, 1), 0, 4 | 2 << 16 | 7 << 32, 0x44 | 0x55 << 32))
        wide = chunk(2, 1, (first(5, 9, 2), 0, 3 | 1 << 16 | 8 << 32, 0x7F0000001000, 0x7F0000002000), ticket=2)
        self.all(one, wide)
        self.assertEqual(self.stacks[7], Stack(7, 0x500040, (TEXT + 0x11, TEXT + 0x22, TEXT + 0x33), False))
        self.assertEqual(self.stacks[8], Stack(8, 0, (TEXT + 0x44, TEXT + 0x55, TEXT + 0x22, TEXT + 0x33), True))
        self.assertEqual(self.stacks[9], Stack(9, 0, (0x7F0000001000, 0x7F0000002000, TEXT + 0x33), False))

    def test_chunks_that_were_never_begun(self):
        self.assertEqual(len(self.all(chunk(0, 0, BEGIN), [0] * 8192, chunk(0, 1, (first(31), 2, 0), ticket=2))), 2)

    def test_a_file_that_is_longer_than_what_was_used(self):
        with Recording(self.write(header(w4=2, w5=9), chunk(0, 0, BEGIN), [1] * 8192)) as recording:
            self.assertEqual(len(list(recording.events())), 1)


class Refused(Files):
    def test_no_recording(self):
        for text in (b"", b"goheaprc", b"x" * CHUNK):
            with open(self.path, "wb") as file:
                file.write(text)
            with self.assertRaises(Damaged) as caught:
                Recording(self.path)
            self.assertIn("no recording: ", str(caught.exception))

    def test_headers(self):
        for fields, said in (({"w1": 1}, "byte 8: a recording of version 1, and only 2 is known"), ({"w2": 4096}, "byte 16: chunks of 4096 bytes, not 65536"),
                             ({"w7": 3}, "byte 56: a state 3 that is not known"), ({"w25": 1}, "byte 200: a word of the header that should be 0 is not"),
                             ({"w8191": 1}, "byte 65528: a word of the header that should be 0 is not"),
                             ({"w4": 9}, "byte 32: 9 chunks are in use, and the file has 2")):  # fmt: skip
            with self.subTest(fields=fields):
                self.assertEqual(self.refused(chunk(0, 0, BEGIN), **fields), said)

    def test_lengths(self):
        for more in (b"1", b"x" * (CHUNK - 1)):
            with self.assertRaises(Damaged) as caught:
                Recording(self.write(header(w4=1), more=more))
            self.assertIn(f"byte {CHUNK + len(more)}: the file ends within a chunk of 65536 bytes", str(caught.exception))

    def test_chunks(self):
        none = "byte 65536: no chunk of a recording begins here"
        for words, said in ((chunk(1024, 0, BEGIN), none), (chunk(0, 0, BEGIN)[:0] + [193] + [0] * 8191, none), ([192 | 1 << 8] + [0] * 8191, none),
                            (chunk(0, 7, BEGIN), "byte 65560: chunk 7 should come before this one, and does not")):  # fmt: skip
            with self.subTest(said=said):
                self.assertEqual(self.refused(words), said)

    def test_events(self):
        at = CHUNK + 8 * (4 + len(BEGIN))
        for words, said in (
            ((first(6), 1), "an event of kind 6, which is not known"), ((first(255), 1), "an event of kind 255, which is not known"),
            ((first(0, 5), 1), "an event of kind 0, which is not known"),
            ((first(1, 5, 16), 1), "an event of kind 1 has a flag that it cannot have"), ((first(31, 0, 2), 2, 0), "an event of kind 31 has a flag that it cannot have"),
            ((first(16, 0, 3), 2, 0, 0, 0, 0), "an event of kind 16 has a number that it cannot have"),
            ((first(4, 5), 1 << 32, 40000), "an event of kind 4 has a number that it cannot have"),
            ((first(20, 5), 2, 3 | 1 << 48, 5, 8), "an event of kind 20 has a number that it cannot have"),
            ((first(20, 5), 2, 3 | 2 << 48, 5, 1), "an event of kind 20 has a number that it cannot have"),
            ((first(20, 5), 2, 3 | 4 << 16, 5, 0), "an event of kind 20 has a number that it cannot have"),
            ((first(24, 5), 2, 1 | 136 << 32, 0), "an event of kind 24 has a number that it cannot have"),
            ((first(25, 5), 2, 1 | 5 << 40, 0), "an event of kind 25 has a number that it cannot have"),
            ((first(26, 5), 2, 1 | 1 << 48), "an event of kind 26 has a number that it cannot have"),
            ((first(30, 5), 2, 1 << 8), "an event of kind 30 has a number that it cannot have"),
            ((first(48, 5), 2, 1, 1, 0, 2), "an event of kind 48 has a number that it cannot have"),
            ((first(5, 5), 2, 60000), "an event of kind 5 goes over the end of its chunk"),
            ((first(20, 5), 2, 65535, 0), "an event of kind 20 has a number that it cannot have"),
        ):  # fmt: skip
            with self.subTest(words=words):
                self.assertEqual(self.refused(chunk(0, 0, BEGIN, words)), f"byte {at}: {said}")

    def test_events_at_the_end_of_a_chunk(self):
        filling = [(first(1, 8), 1)] * ((8192 - 4 - len(BEGIN)) // 2)
        whole = chunk(0, 0, BEGIN, *filling)
        self.assertEqual(len(self.all(whole)), 1 + len(filling))
        for word in (first(31), first(20), first(5, 3), first(4)):
            with self.subTest(word=word):
                self.assertEqual(self.refused([*whole[:-2], word, 1]), f"byte {2 * CHUNK - 16}: an event of kind {word & 255} goes over the end of its chunk")

    def test_tickets(self):
        for events, said in (([(first(31), 1, 0)], "ticket 1 of this chunk does not rise"), ([(first(31), 1000, 0)], "ticket 1000 of this chunk was never drawn")):
            self.assertEqual(self.refused(chunk(0, 0, BEGIN, *events)), "byte 65536: " + said)
        self.assertEqual(self.refused(chunk(0, 0, BEGIN, ticket=2)), "byte 65536: ticket 1 of this chunk does not rise")

    def test_a_ticket_that_is_drawn_twice(self):
        self.assertIn("ticket 2 was drawn twice", self.refused(chunk(0, 0, BEGIN, (first(31), 2, 0)), chunk(1, 0, (first(31), 2, 1))))

    def test_stacks(self):
        stack = (first(5, 7), 0, 1, 0x10)
        for events, said in (([stack, stack], "stack 7 is told twice, or cannot be"), ([(first(5, 0), 0, 1, 0x10)], "stack 0 is told twice, or cannot be"),
                             ([(first(5, 1001), 0, 1, 0x10)], "stack 1001 is told twice, or cannot be"),
                             ([stack, (first(5, 8), 0, 2 | 2 << 16 | 7 << 32)], "stack 8 shares frames with 7, which has them not"),
                             ([(first(5, 8), 0, 2 | 1 << 16 | 6 << 32, 0x10)], "stack 8 shares frames with 6, which has them not")):  # fmt: skip
            with self.subTest(said=said):
                self.assertEqual(self.refused(chunk(0, 0, BEGIN, *events)), "byte 65536: " + said)
        for words in ((first(5, 8), 0, 1 | 2 << 16 | 7 << 32), (first(5, 7), 0, 1, 0x10 | 1 << 32)):
            self.assertIn("an event of kind 5 has a number that it cannot have", self.refused(chunk(0, 0, BEGIN, words)))


if __name__ == "__main__":
    unittest.main()
