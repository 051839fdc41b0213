"""Which objects of a trace live in which cycle, and the profiles that follow: what a run's own marks and counts are held against."""
from collections import Counter


def profiles_of(sampled, cycles, lasts, mark_ends):
    """The profile as of each mark end by the trace: the samples of the cycles before it, and those of them that it does not mark any more.
    `lasts` has the last cycle in which each object lives."""
    new, gone = {}, {}
    for i, bucket in sampled.items():
        new.setdefault(cycles[i] + 1, []).append(bucket)
        gone.setdefault(lasts[i] + 1, []).append(bucket)
    allocs, frees = Counter(), Counter()
    for m in range(1, mark_ends + 1):
        allocs.update(new.get(m, ()))
        frees.update(gone.get(m, ()))
        yield {b: (n, frees[b]) for b, n in allocs.items()}


class Living:
    """Who lives, of the objects that have a slot: how many of its block do, and by pages the slots that are held. A mark end costs what its lines
    name and what was allocated since the one before."""

    def __init__(self, answers, cycles):
        # what became of each object, and the cycle in which it was allocated
        self.answers, self.cycles = answers, cycles
        self.holders, self.marks, self.lasts = {}, {}, {}
        self.at = 0

    def root(self, i):
        """The object whose slot this one is in, if it is in one."""
        what, *rest = self.answers[i]
        return i if what == "at" else rest[0] if what == "rides" else None

    def hold(self, i):
        """The object lives."""
        root = self.root(i)
        if root is not None:
            self.holders[root] = self.holders.get(root, 0) + 1
            self.marks.setdefault(self.answers[root][1].page, set()).add(self.answers[root][2])

    def drop(self, i, m):
        """The object is found dead by this mark end."""
        root = self.root(i)
        if root is None:
            return
        self.holders[root] -= 1
        if not self.holders[root]:
            del self.holders[root]
            self.lasts[root] = m - 1
            page = self.answers[root][1].page
            self.marks[page].discard(self.answers[root][2])
            if not self.marks[page]:
                del self.marks[page]

    def mark_end(self, m, is_of_dead, named):
        """A mark end names the dead, or the marked."""
        for i in range(self.at, len(self.cycles)):
            self.hold(i)
        self.at = len(self.cycles)
        if is_of_dead:
            for i in named:
                self.drop(i, m)
            return
        before = self.holders
        self.holders, self.marks = {}, {}
        for i in named:
            self.hold(i)
        self.lasts.update((root, m - 1) for root in before if root not in self.holders)

    def end(self, m):
        """The trace ends with this mark end the last. What lives, and what came behind it, lives on."""
        self.lasts.update(dict.fromkeys(self.holders, m))
        self.lasts.update((i, m) for i in range(self.at, len(self.cycles)))
