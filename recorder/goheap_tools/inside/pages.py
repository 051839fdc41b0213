"""The pages of the heap, as the rules of Go's page allocator have them."""

from __future__ import annotations

from collections.abc import Callable

from ..heap.classes import PAGE
from . import events as form

BLOCK_PAGES = 64
CHUNK_PAGES = 512
ABSENT, FREE, USED, PULLED, LENT = range(5)


class Pages:
    """Which pages are free, used, in a processor's block or lent to the scavenger, and which are scavenged."""

    def __init__(self, expect: Callable) -> None:
        self.expect = expect
        self.first = 0  # number of the first page, when there is one
        self.state = bytearray()
        self.scavenged = bytearray()
        self.blocks: dict[int, tuple[int, int, int]] = {}  # first page, free ones, scavenged ones

    def released(self) -> int:
        """Bytes of scavenged pages."""
        in_blocks = sum(scavenged.bit_count() for _, _, scavenged in self.blocks.values())
        return (sum(self.scavenged) + in_blocks) * PAGE

    def grow(self, event: form.Growth) -> None:
        page, count = event.address // PAGE, event.bytes // PAGE
        if not self.state:
            self.first = page
        end = self.first + len(self.state)
        self.expect(page == end and count % CHUNK_PAGES == 0, "the region grows upwards without a gap, by whole chunks", event, end)
        self.state += bytes([FREE]) * count
        self.scavenged += b"\1" * count

    def stand(self, event: form.Pages) -> None:
        page = event.address // PAGE
        if not self.state:
            self.first = page
        end = self.first + len(self.state)
        self.expect(page >= end, "the standing pages rise", event, end)
        self.state += bytes(page - end) + bytes(USED if event.taken >> i & 1 else FREE for i in range(CHUNK_PAGES))
        self.scavenged += bytes(page - end) + bytes(event.scavenged >> i & 1 for i in range(CHUNK_PAGES))

    def hold(self, event: form.Block) -> None:
        """A block that is out where the recording begins; its pages are told as used later."""
        self.blocks[event.owner] = (event.address // PAGE, event.free, event.scavenged & event.free)

    def take(self, event: form.Run) -> None:
        lowest = self.state.find(bytes([FREE]) * event.pages)
        at = event.address // PAGE - self.first
        self.expect(lowest == at, "a run is taken at first fit", event, hex((self.first + lowest) * PAGE))
        self.expect(sum(self.scavenged[at : at + event.pages]) == event.scavenged, "a taken run has the scavenged pages that are told", event)
        self.state[at : at + event.pages] = bytes([USED]) * event.pages
        self.scavenged[at : at + event.pages] = bytes(event.pages)

    def give(self, event: form.Run) -> None:
        at = event.address // PAGE - self.first
        used = self.state[at : at + event.pages] == bytes([USED]) * event.pages
        self.expect(used and not any(self.scavenged[at : at + event.pages]), "what goes back was in use", event)
        self.state[at : at + event.pages] = bytes([FREE]) * event.pages

    def pull(self, event: form.Block) -> None:
        at = event.address // PAGE - self.first
        _, left, _ = self.blocks.get(event.owner, (0, 0, 0))
        self.expect(left == 0, "a processor pulls when its block is empty", event)
        least = self.state.find(FREE)
        aligned = (event.address // PAGE) % BLOCK_PAGES == 0
        self.expect(aligned and at <= least < at + BLOCK_PAGES, "the block of the least free page is pulled", event, least)
        free, marks = 0, 0
        for i in range(BLOCK_PAGES):
            if self.state[at + i] == FREE:
                free |= 1 << i
                self.state[at + i] = PULLED
                marks |= self.scavenged[at + i] << i
                self.scavenged[at + i] = 0
        self.expect((event.free, event.scavenged) == (free, marks), "a block has all of its free pages, and their marks", event, (free, marks))
        self.blocks[event.owner] = (event.address // PAGE, free, marks)

    def cut(self, event: form.Run) -> None:
        first, free, marks = self.blocks.get(event.processor, (0, 0, 0))
        at = next((i for i in range(BLOCK_PAGES) if free >> i & (1 << event.pages) - 1 == (1 << event.pages) - 1), -1)
        self.expect(event.address // PAGE == first + at and at >= 0, "a cut is at the first run of the block", event, (first, at))
        self.expect(event.pages < BLOCK_PAGES // 4, "a cut has fewer than 16 pages", event)
        mask = (1 << event.pages) - 1 << at
        self.expect((marks & mask).bit_count() == event.scavenged, "a cut has the scavenged pages that are told", event)
        self.blocks[event.processor] = (first, free & ~mask, marks & ~mask)
        at += first - self.first
        self.state[at : at + event.pages] = bytes([USED]) * event.pages

    def drop(self, event: form.Block) -> None:
        block = self.blocks.pop(event.owner, None)
        told = (event.address // PAGE, event.free, event.scavenged)
        self.expect(block == told, "a block goes back with what is left of it", event, block)
        for i in range(BLOCK_PAGES):
            if event.free >> i & 1:
                self.state[told[0] - self.first + i] = FREE
                self.scavenged[told[0] - self.first + i] = event.scavenged >> i & 1

    def scavenge(self, event: form.Scavenging) -> None:
        at = event.address // PAGE - self.first
        before, after = (FREE, LENT) if event.kind == form.LEND else (LENT, FREE)
        there = self.state[at : at + event.pages] == bytes([before]) * event.pages
        self.expect(there and not any(self.scavenged[at : at + event.pages]), "the scavenger takes free, backed pages, and gives them back", event)
        self.expect(at // CHUNK_PAGES == (at + event.pages - 1) // CHUNK_PAGES, "the scavenger's run lies in one chunk", event)
        self.state[at : at + event.pages] = bytes([after]) * event.pages
        if event.kind == form.SCAVENGED:
            self.scavenged[at : at + event.pages] = b"\1" * event.pages
