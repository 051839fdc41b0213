#!/usr/bin/env python3
"""A plain model of `goheap run`, with its workers one after another: the processors, the background sweepers, the scavenger, the driver.
Its options are those of `goheap run` that are one word: `--each` and `--background=N` (1 if it is not said).

It runs traces of the versions 1, 2 (with page caches), 3 (with tiny objects too) and 4 (with flushes and the dead too). It follows the rules
that docs/addresses.md, docs/run.md, docs/central-lists.md, docs/sweeping.md, docs/pages.md, docs/tiny-objects.md and docs/profile.md state, and
shares no code with the program, nor with the readers and the judge under `recorder/`: so each of the three can be held against the others. It
reads a trace from standard input and writes its report. It checks nothing of the trace, searches pages one by one, and is meant to be read
beside the rules and to be compared with the program (`model/test`), not to be used.

The lines of the profile are those of a ring, as the program has one; that they are also what the trace and the sampled objects say as of
each mark end is asserted.
"""
import itertools
import sys
from collections import Counter, deque

from living import Living, profiles_of

BASE, PAGE, CHUNK = 0xC000000000, 8192, 512
# The pages of a block of a page cache, and those that a span has at least that is cut out of none.
BLOCK, UNCUT = 64, 16
# The bytes that tiny objects share.
TINY = 16
# The first version in which a page that goes into a page cache without memory comes back without.
REAL = 4


def load_classes():
    sizes = [8, 16, 24, 32, 48, 64, 80, 96, 112, 128, 144, 160, 176, 192, 208, 224, 240, 256, 288, 320, 352, 384, 416, 448, 480, 512, 576, 640, 704, 768, 896, 1024, 1152, 1280, 1408, 1536, 1792, 2048, 2304, 2688, 3072, 3200, 3456, 4096, 4864, 5376, 6144, 6528, 6784, 6912, 8192, 9472, 9728, 10240, 10880, 12288, 13568, 14336, 16384, 18432, 19072, 20480, 21760, 24576, 27264, 28672, 32768]
    pages = [1, 1, 1, 1, 1, 1, 1, 1, 1, 1, 1, 1, 1, 1, 1, 1, 1, 1, 1, 1, 1, 1, 1, 1, 1, 1, 1, 1, 1, 1, 1, 1, 1, 1, 2, 1, 2, 1, 2, 1, 3, 2, 3, 1, 3, 2, 3, 4, 5, 6, 1, 7, 6, 5, 4, 3, 5, 7, 2, 9, 7, 5, 8, 3, 10, 7, 4]
    return [None] + list(zip(sizes, pages))


CLASSES = load_classes()


class Words:
    """The 32-bit words of PCG XSH RR 64/32 for a state and a stream (O'Neill, 2014): a linear congruential generator of 64 bits, whose
    old state gives each word by a shift and a rotation. The stream makes the increment odd, and the state is added to it at the start."""

    def __init__(self, state, stream):
        self.increment = stream * 2 + 1
        self.state = state + self.increment
        self.step()

    def step(self):
        self.state = (self.state * 6364136223846793005 + self.increment) % 2**64

    def next(self):
        old = self.state
        self.step()
        mixed = ((old >> 18 ^ old) >> 27) % 2**32
        turn = old >> 59
        return (mixed >> turn | mixed << (32 - turn)) % 2**32


class Sampler:
    """The countdown of one processor."""

    def __init__(self, rate, seed, proc):
        self.rate, self.words = rate, Words(seed, proc)
        self.left = self.draw()

    def draw(self):
        return 1 + self.words.next() % (2 * self.rate - 1) if self.rate else None

    def sample(self, slot):
        if self.left is None:
            return False
        if slot < self.left:
            self.left -= slot
            return False
        self.left = self.draw()
        return True


class Ring:
    """What is published of the sampled objects, by stack and slot size."""

    def __init__(self):
        self.cycle = 0
        # by the cycle that they wait for
        self.allocs, self.frees = {}, {}
        self.published_allocs, self.published_frees = Counter(), Counter()

    def allocated(self, bucket):
        self.allocs.setdefault(self.cycle + 2, Counter())[bucket] += 1

    def freed(self, bucket):
        self.frees.setdefault(self.cycle + 1, Counter())[bucket] += 1

    def publish(self, cycle):
        self.published_allocs.update(self.allocs.pop(cycle, Counter()))
        self.published_frees.update(self.frees.pop(cycle, Counter()))

    def next_cycle(self):
        self.cycle += 1
        self.publish(self.cycle)

    def after_sweep(self):
        self.publish(self.cycle + 1)

    def profile(self):
        return {b: (n, self.published_frees[b]) for b, n in self.published_allocs.items()}


class Block:
    """What is out of the free pages for one processor: its first page, the pages that are left, and the spans that were cut."""

    def __init__(self, page, left):
        self.page, self.left, self.cuts = page, left, []

    def find(self, n):
        """The first run of so many pages that are left."""
        return next((p for p in self.left if all(p + i in self.left for i in range(n))), None)


class Tiny:
    """The block of 16 bytes that the next tiny objects of one processor may share: its lead, its address and the bytes that are used."""

    def __init__(self):
        self.lead = self.start = self.offset = None

    def ride(self, size):
        """The address of a rider of this size, where there is room."""
        if self.lead is None:
            return None
        step = next(step for step in (8, 4, 2, 1) if size % step == 0)
        offset = -(-self.offset // step) * step
        if offset + size > TINY:
            return None
        self.offset = offset + size
        return self.start + offset

    def led(self, lead, start, size):
        """A lead of this size was placed there."""
        if self.lead is None or size < self.offset:
            self.lead, self.start, self.offset = lead, start, size


class Span:
    __slots__ = ("page", "pages", "cls", "slot", "count", "bits", "next", "word", "samples")


class Heap:
    def __init__(self, version, chunks, goal, procs, rate, seed):
        self.has_page_caches, self.is_real = version > 1, version >= REAL
        # the block that is out: the processors work one after another, so there is one at most
        self.block = None
        self.tiny = [Tiny() for _ in range(procs)] if version > 2 else None
        self.pages, self.goal = chunks * CHUNK, goal
        self.owner = [None] * self.pages
        self.unscav = [False] * self.pages
        self.backed = 0
        self.cycle = 0
        # the journal: each line with its cycle
        self.lines = []
        self.spans = {}
        self.swept = {}
        self.unswept = {}
        self.cache = [dict() for _ in range(procs)]
        self.flushed = [True] * procs
        self.marks = {}
        self.notes = []
        self.swept_pages = self.spent = self.chunk = 0
        self.P = self.D = 0
        self.samplers = [Sampler(rate, seed, p) for p in range(procs)]
        self.ring = Ring()

    # -- pages
    def find(self, n):
        run = 0
        for p in range(self.pages):
            run = 0 if self.owner[p] else run + 1
            if run == n:
                return p - n + 1
        return None

    def take(self, n, cls):
        if n > self.pages:
            at = None
        else:
            at = self.find(n)
        if at is None:
            return None
        self.lines.append((self.cycle, f"take {at} {n} {cls}"))
        return self.made(at, n, cls)

    def made(self, at, n, cls):
        s = Span()
        s.page, s.pages, s.cls, s.next, s.word = at, n, cls, 0, "held"
        if cls < 2:
            s.slot, s.count = n * PAGE, 1
        else:
            s.slot = CLASSES[cls // 2][0]
            s.count = n * PAGE // s.slot
        s.bits = [False] * s.count
        # the bucket of each sampled object, by its index
        s.samples = {}
        self.own(range(at, at + n), s)
        self.spans[at] = s
        return s

    def own(self, pages, owner):
        """These pages are not free any more, and backed."""
        for p in pages:
            self.owner[p] = owner
            if not self.unscav[p]:
                self.unscav[p] = True
                self.backed += 1

    def give(self, s):
        for p in range(s.page, s.page + s.pages):
            self.owner[p] = None
        del self.spans[s.page]
        s.word = "gone"
        self.lines.append((self.cycle, f"give {s.page} {s.pages}"))

    def scavenge(self):
        while self.backed > self.goal:
            top = next((p for p in range(self.pages - 1, -1, -1) if self.owner[p] is None and self.unscav[p]), None)
            if top is None:
                return
            low = top
            while low % CHUNK and top - low + 1 < 64 and self.owner[low - 1] is None and self.unscav[low - 1]:
                low -= 1
            for p in range(low, top + 1):
                self.unscav[p] = False
            self.backed -= top - low + 1
            self.lines.append((self.cycle, f"scav {low} {top - low + 1}"))

    # -- page caches
    def pull(self, proc):
        """The free pages of the block of the least free page go to the processor."""
        at = self.find(1)
        if at is None:
            return
        first = at // BLOCK * BLOCK
        left = [p for p in range(first, first + BLOCK) if self.owner[p] is None]
        self.block = Block(first, left)
        if self.is_real:
            for p in left:
                self.owner[p] = self.block
        else:
            self.own(left, self.block)
        self.lines.append((self.cycle, f"pull {proc} {first} {len(left)}"))

    def cut(self, proc, n, cls):
        """A span out of the processor's block, which is pulled where there is none, or nothing is left of it."""
        if n >= UNCUT or proc is None:
            return None
        if self.block is None or not self.block.left:
            self.drop(proc)
            self.pull(proc)
        at = self.block and self.block.find(n)
        if at is None:
            return None
        self.block.left = [p for p in self.block.left if not at <= p < at + n]
        self.block.cuts.append((at, n, cls))
        return self.made(at, n, cls)

    def drop(self, proc):
        """What is left of the block goes back, behind the lines of its cuts."""
        if self.block is None:
            return
        for at, n, cls in self.block.cuts:
            self.lines.append((self.cycle, f"cut {proc} {at} {n} {cls}"))
        for p in self.block.left:
            self.owner[p] = None
        self.lines.append((self.cycle, f"drop {proc} {self.block.page} {len(self.block.left)}"))
        self.block = None

    # -- sets
    def push(self, s, full):
        s.word = "swept"
        self.swept.setdefault((s.cls, full), deque()).append(s)

    def sweep(self, s):
        marked = self.marks.get(s.page, set())
        kept = len(marked)
        freed = sum(s.bits) - kept
        s.bits = [i in marked for i in range(s.count)]
        for i in [i for i in s.samples if i not in marked]:
            self.ring.freed(s.samples.pop(i))
        s.next = 0
        self.swept_pages += s.pages
        self.notes.append((self.cycle, s.page, kept, freed))
        return kept

    def settle(self, s):
        kept = self.sweep(s)
        if kept == 0:
            self.give(s)
            return s.pages
        self.push(s, s.cls < 2 or kept == s.count)
        return 0

    def sweep_one(self):
        for cls in range(136):
            for full in (True, False):
                q = self.unswept.get((cls, full))
                while q:
                    s = q.popleft()
                    if s.word == "unswept":
                        self.settle(s)
                        return True
        return False

    def sweep_all(self):
        while self.sweep_one():
            pass

    def pay(self, b, credit):
        if self.cycle == 0:
            return
        target = self.P * (b + self.spent) // self.D - credit
        while self.swept_pages < target:
            if not self.sweep_one():
                return

    def reclaim(self, n):
        given, claimed = 0, 0
        chunks = self.pages // CHUNK
        while given < n and claimed < chunks:
            i, self.chunk, claimed = self.chunk, self.chunk + 1, claimed + 1
            if i >= chunks:
                return
            for p in range(i * CHUNK, (i + 1) * CHUNK):
                s = self.spans.get(p)
                if s and s.word == "unswept" and not self.marks.get(p):
                    given += self.settle(s)

    def new_span(self, p, n, cls):
        proc = p if self.has_page_caches else None
        self.reclaim(n)
        s = self.cut(proc, n, cls) or self.take(n, cls)
        if s is None:
            self.sweep_all()
            self.drop(proc)
            s = self.take(n, cls)
        if s is None:
            self.lines.append((self.cycle, f"miss {n} {cls}"))
            return len(self.lines) - 1
        return s

    def flush(self, p):
        if self.flushed[p]:
            return
        self.flushed[p] = True
        for cls in sorted(self.cache[p]):
            s = self.cache[p].pop(cls)
            self.settle(s)

    def forget(self, p):
        """The processor is flushed: its tiny block is no more the current one. It keeps the spans that it has."""
        if self.tiny:
            self.tiny[p] = Tiny()

    def cache_span(self, cls):
        q = self.swept.get((cls, False))
        if q:
            return q.popleft()
        tried = 0
        for full in (False, True):
            q = self.unswept.get((cls, full))
            while q and tried < 100:
                s = q.popleft()
                tried += 1
                if s.word != "unswept":
                    continue
                kept = self.sweep(s)
                if kept < s.count:
                    return s
                self.push(s, True)
        return None

    @staticmethod
    def lowest(s):
        for i in range(s.next, s.count):
            if not s.bits[i]:
                return i
        return None

    def place(self, s, i):
        s.bits[i] = True
        s.next = i + 1
        return ("at", s, i, BASE + PAGE * s.page + s.slot * i)

    def sample(self, p, stack, got):
        """Whether the object that was placed is sampled."""
        _, s, i, _ = got
        if not self.samplers[p].sample(s.slot):
            return False
        s.samples[i] = (stack, s.slot)
        self.ring.allocated((stack, s.slot))
        return True

    def answer(self, i, p, size, scan):
        """What becomes of object i; of a rider the lead and the address."""
        tiny = self.tiny[p] if self.tiny and 0 < size < TINY and not scan else None
        if not tiny:
            return self.alloc(p, size, scan)
        at = tiny.ride(size)
        if at is not None:
            return ("rides", tiny.lead, None, at)
        got = self.alloc(p, TINY, scan)
        if got[0] == "at":
            tiny.led(i, got[3], size)
        return got

    def alloc(self, p, size, scan):
        if size == 0:
            return ("zero",)
        self.flush(p)
        if size > 32768:
            n = -(-size // PAGE)
            cls = 0 if scan else 1
            self.pay(n * PAGE, n)
            s = self.new_span(p, n, cls)
            if isinstance(s, int):
                return ("miss", s)
            self.spent += n * PAGE
            got = self.place(s, 0)
            self.push(s, True)
            return got
        k = next(c for c in range(1, 68) if CLASSES[c][0] >= size)
        cls = 2 * k + (0 if scan else 1)
        s = self.cache[p].get(cls)
        if s:
            i = self.lowest(s)
            if i is not None:
                return self.place(s, i)
            del self.cache[p][cls]
            self.push(s, True)
        n = CLASSES[k][1]
        self.pay(n * PAGE, 0)
        s = self.cache_span(cls)
        if s is None:
            s = self.new_span(p, n, cls)
            if isinstance(s, int):
                return ("miss", s)
        self.spent += n * PAGE
        s.word = "cached"
        self.cache[p][cls] = s
        return self.place(s, self.lowest(s))

    def end_cycle(self, background):
        # Each background sweeper sweeps until nothing is left, so that the first of them leaves nothing to the others.
        if background and self.cycle > 0:
            self.sweep_all()
        self.scavenge()
        if self.cycle > 0:
            self.sweep_all()
            for p in range(len(self.cache)):
                self.flush(p)
            self.ring.after_sweep()
        self.scavenge()

    def mark_end(self, distance, marks):
        self.P = sum(s.pages for s in self.spans.values())
        self.D = max(distance - 1048576, 8192)
        self.marks = marks
        self.unswept, self.swept = self.swept, {}
        for s in self.spans.values():
            s.word = "stale" if s.word == "cached" else "unswept"
        self.flushed = [False] * len(self.cache)
        self.tiny = self.tiny and [Tiny() for _ in self.tiny]
        self.swept_pages = self.spent = self.chunk = 0
        self.cycle += 1
        self.ring.next_cycle()


def changed(old, new):
    """The buckets of the new profile whose numbers are not those of the old one."""
    return {b: n for b, n in new.items() if n != old.get(b, (0, 0))}


def profile_lines(profiles, each):
    """The lines of these profiles as of mark end 1, 2 and so on: of the last one alone, or of each."""
    shown = {}
    for m, new in enumerate(profiles, 1):
        if m == len(profiles):
            shown[m] = new
        elif each:
            shown[m] = changed(profiles[m - 2] if m > 1 else {}, new)
    return [f"p {m} {stack} {slot} {a} {f}\n" for m in sorted(shown) for (stack, slot), (a, f) in sorted(shown[m].items())]


class Run:
    """A run of a trace, with what became of each object."""

    def __init__(self, lines, background):
        head = lines[1].split()
        chunks, procs, rate, seed, goal = (int(head[i]) for i in (1, 3, 5, 7, 9))
        self.heap = Heap(int(lines[0].split()[1]), chunks, goal, procs, rate, seed)
        self.lines, self.background = lines, background
        # of each object its cycle and what became of it; the bucket of each sampled one; and the profile as of each mark end
        self.cycles, self.out, self.sampled, self.profiles = [], {}, {}, []
        self.queues = [[] for _ in range(procs)]
        self.living = Living(self.out, self.cycles)

    def go(self):
        at = 2
        while True:
            f = self.lines[at].split()
            at += 1
            if f[0] == "a":
                self.queues[int(f[1])].append((len(self.cycles), int(f[2]), f[3] == "s", int(f[4])))
                self.cycles.append(self.heap.cycle)
            elif f[0] == "f":
                self.queues[int(f[1])].append(None)
            else:
                self.run_cycle()
                if f[0] == "end":
                    return self.end()
                at = self.mark_end(f, at)

    def run_cycle(self):
        for p, queue in enumerate(self.queues):
            for event in queue:
                if event is None:
                    self.heap.forget(p)
                else:
                    self.answer(p, *event)
            queue.clear()
            self.heap.drop(p)
        self.heap.end_cycle(self.background)

    def answer(self, p, i, size, scan, stack):
        self.out[i] = self.heap.answer(i, p, size, scan)
        if self.out[i][0] == "at" and self.heap.sample(p, stack, self.out[i]):
            self.sampled[i] = (stack, self.out[i][1].slot)

    def mark_end(self, f, at):
        """A `gc` line, whose lines begin there. Returns where those behind them begin."""
        named = []
        while self.lines[at][:2] in ("m ", "d "):
            _, lo, hi = self.lines[at].split()
            named.append(range(int(lo), int(hi) + 1))
            at += 1
        self.living.mark_end(self.heap.cycle + 1, f[2:] == ["all"], itertools.chain.from_iterable(named))
        self.heap.mark_end(int(f[1]), self.living.marks)
        if self.heap.cycle > 1:
            self.profiles.append(self.heap.ring.profile())
        return at

    def end(self):
        if self.heap.cycle:
            self.profiles.append(self.heap.ring.profile())
        self.living.end(self.heap.cycle)
        told = profiles_of(self.sampled, self.cycles, self.living.lasts, self.heap.cycle)
        for m, (profile, wanted) in enumerate(zip(self.profiles, told), 1):
            assert profile == wanted, f"the ring is wrong as of mark end {m}"

    def totals(self):
        """How many objects of each size class were placed, and how many of them do not live any more."""
        totals = {}
        for i, a in self.out.items():
            if a[0] == "at":
                t = totals.setdefault(a[1].cls // 2, [0, 0])
                t[0] += 1
                t[1] += self.living.lasts[i] < self.heap.cycle
        return totals

    def report(self, each):
        """The lines of the report."""
        for i in range(len(self.cycles)):
            a = self.out[i]
            yield f"o {i} zero\n" if a[0] == "zero" else f"o {i} miss {a[1]}\n" if a[0] == "miss" else f"o {i} {a[3]:#x}\n"
        for n, (c, text) in enumerate(self.heap.lines):
            yield f"j {n} {c} {text}\n"
        for c, p, k, fr in sorted(self.heap.notes):
            yield f"s {c} {p} {k} {fr}\n"
        for c, (mallocs, frees) in sorted(self.totals().items()):
            yield f"t {c} {mallocs} {frees}\n"
        yield from profile_lines(self.profiles, each)
        yield "end\n"


def main():
    each = "--each" in sys.argv[1:]
    background = next((int(word.split("=")[1]) for word in sys.argv[1:] if word.startswith("--background=")), 1)
    run = Run(sys.stdin.read().split("\n"), background)
    run.go()
    sys.stdout.writelines(run.report(each))


if __name__ == "__main__":
    main()
