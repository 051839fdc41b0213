"""Made-up traces of many shapes, the same at each run of a generator of random numbers with the same seed."""

SIZES = [8, 16, 24, 48, 512, 1024, 2048, 3072, 4096, 9000, 30000, 32768]
LARGE = [32769, 40000, 100000, 1000000, 5000000]
DISTANCES = [1, 1048577, 1100000, 2000000, 10000000, 1 << 40]
RATES = [0, 1, 100, 4096, 524288]
# How many of a trace's objects have at most 16 bytes, most of them without pointers: less than that many are tiny.
SHARES = [0.0, 0.3, 0.9]
TINY = 16
# How many tiny objects come where a page is left for them.
TIGHT = 700
# The first version with flushes and the dead.
REAL = 4


def object_of(rng, common, tiny):
    """The size of an object, and whether it has pointers."""
    if rng.random() < tiny:
        return rng.randrange(1, TINY + 1), rng.choice("nnns")
    return size_of(rng, common), rng.choice("sn")


def size_of(rng, common):
    kind = rng.random()
    if kind < 0.03:
        return 0
    if kind < 0.1:
        return rng.choice(LARGE)
    return rng.choice(common) if kind < 0.85 else rng.randrange(1, 32769)


def range_lines(kind, named):
    """The lines of this kind of these ids, a line for each run of neighbours."""
    lines, ids = [], sorted(named)
    for at, one in enumerate(ids):
        if at and ids[at - 1] == one - 1:
            lines[-1][1] = one
        else:
            lines.append([one, one])
    return [f"{kind} {low} {high}" for low, high in lines]


def flushed(rng, procs, lines):
    """The lines of a cycle with flushes of any processors between them, few or many."""
    share = rng.choice([0.0, 0.02, 0.3])
    found = []
    for line in lines:
        if rng.random() < share:
            found.append(f"f {rng.randrange(procs)}")
        found.append(line)
    return found


def made_trace(rng, chunk_counts=(1, 1, 1, 2, 3), proc_counts=(1, 1, 2, 3, 4, 64), alone=False, ends=None, version=1):
    """A trace with a number of chunks and of processors out of these, and with so many mark ends, or 1 to 7. Where each is to work
    alone, the events of a cycle are of one processor, and the goal is the whole region. In version 2 processors have page caches, in version 3
    tiny objects share blocks too, and in version 4 processors are flushed and mark ends name the dead as well."""
    chunks = rng.choice(chunk_counts)
    procs = rng.choice(proc_counts)
    goal = rng.choice([512 * chunks, 512 * chunks, 0, rng.randrange(512 * chunks + 1)])
    if alone:
        goal = 512 * chunks
    rate, seed = rng.choice(RATES), rng.choice([0, 1, rng.randrange(2**64)])
    lines = [f"goheap {version}", f"heap {chunks} procs {procs} rate {rate} seed {seed} goal {goal}"]
    common = [rng.choice(SIZES) for _ in range(rng.randrange(1, 4))]
    tiny = rng.choice(SHARES)
    count, alive = 0, set()
    for at in range(rng.randrange(1, 8) if ends is None else ends):
        fresh = rng.choice([0, 1, 5, 40, 300])
        fresh_lines = events(rng, procs, common, tiny, fresh, alone)
        if at == 0 and rng.random() < 0.1:
            # one page is left, and no room on it for so many tiny objects
            fresh, fresh_lines = TIGHT, tight(rng, procs, 512 * chunks - 1, alone)
        lines += flushed(rng, procs, fresh_lines) if version >= REAL else fresh_lines
        share = rng.choice([0.0, 0.2, 0.5, 0.9, 1.0])
        before = alive | set(range(count, count + fresh))
        alive = {one for one in before if rng.random() < share}
        count += fresh
        names_dead = version >= REAL and rng.random() < 0.6
        lines.append(f"gc {rng.choice(DISTANCES)}{' all' if names_dead else ''}")
        lines += range_lines("d", before - alive) if names_dead else range_lines("m", alive)
    lines += events(rng, procs, common, tiny, rng.choice([0, 3, 100]), alone)
    return "\n".join(lines + ["end", ""])


def events(rng, procs, common, tiny, count, alone):
    """The `a` lines of a cycle: of one processor, or of any."""
    one, lines = rng.randrange(procs), []
    for _ in range(count):
        size, kind = object_of(rng, common, tiny)
        lines.append(f"a {one if alone else rng.randrange(procs)} {size} {kind} {rng.randrange(10)}")
    return lines


def tight(rng, procs, pages, alone):
    """A large object of so many pages and behind it objects of 9 to 16 bytes without pointers, few of which share a block."""
    one = rng.randrange(procs)
    rest = [f"a {one if alone else rng.randrange(procs)} {rng.randrange(9, 17)} n {rng.randrange(10)}" for _ in range(TIGHT - 2)]
    return [f"a {one} {8192 * pages} n 0", *rest, f"a {one} 1 n 0"]


def is_of_one_worker(trace, background):
    """Whether in each cycle of a run at most one worker has anything to do, so that its report does not depend on the schedule: no
    cycle has events of two processors, no background sweeper finds a span, and the scavenger's goal is never passed."""
    lines = trace.split("\n")
    chunks, goal = int(lines[1].split()[1]), int(lines[1].split()[-1])
    if goal < 512 * chunks or (background and any(line.startswith("gc ") for line in lines)):
        return False
    procs = set()
    for line in lines:
        if line.startswith("a "):
            procs.add(line.split()[1])
        elif line.startswith("gc "):
            procs.clear()
        if len(procs) > 1:
            return False
    return True
