"""Where our calls go into Go's package runtime: each place is found exactly once, or nothing is built."""

from __future__ import annotations

from dataclasses import dataclass

BEFORE = "before"  # the statement that is found
BEHIND = "behind"  # it
CLOSING = "closing"  # at the end of the block in which it stands
ENDING = "ending"  # at the end of the function; nothing is looked for


@dataclass(frozen=True)
class Place:
    """One call of ours: in which file and function, at which statement, and what is inserted.

    `function` is how its declaration begins. `statement` is a whole line without its indentation, as a regular
    expression; what it captures may stand in `call`. `times` is how often it is there, and `which` of them is meant
    (from 0); where all are meant, `which` is None.
    """

    event: str
    file: str
    function: str
    statement: str
    where: str
    call: str
    times: int = 1
    which: int | None = None


PLACES = (
    Place("the start", "malloc.go", "func mallocinit() {", "", ENDING, "goheapStart()"),
    Place("an object of size 0", "malloc.go", "func mallocgc(", r"return unsafe\.Pointer\(&zerobase\)", BEFORE,
          "goheapEmpty(uintptr(unsafe.Pointer(&zerobase)), typ, getcallersp())"),
    Place("a rider of a tiny block", "malloc.go", "func mallocgc(", r"c\.tinyAllocs\+\+", BEHIND,
          "x = goheapRider(x, size, typ, getcallersp())"),
    Place("an object", "malloc.go", "func mallocgc(", r"mp\.mallocing = 0", BEFORE,
          "goheapObject(uintptr(x), dataSize, typ, getcallersp())", times=2, which=1),
    Place("an object that Go's profile samples", "malloc.go", "func profilealloc(", r"mProf_Malloc\(x, size\)", BEFORE,
          "goheapProfiled()"),
    Place("a mark's start", "mgc.go", "func gcStart(", r"setGCPhase\(_GCmark\)", BEHIND, "goheapMarkStart()"),
    Place("a mark end", "mgc.go", "func gcSweep(", r"mheap_\.sweepgen \+= 2", BEHIND, "goheapMarkEnd(mode)"),
    Place("a sweep", "mgcsweep.go", "func (sl *sweepLocked) sweep(", r"s\.allocCount = nalloc", BEFORE,
          "goheapSweep(s, nalloc, preserve)"),
    Place("the sweeper's pace", "mgcsweep.go", "func gcPaceSweeper(", "", ENDING, "goheapPace(trigger)"),
    Place("a pull of a page cache", "mheap.go", "func (h *mheap) allocSpan(", r"\*c = h\.pages\.allocToCache\(\)", BEHIND,
          "goheapPull(c)"),
    Place("a cut", "mheap.go", "func (h *mheap) allocSpan(", r"base, scav = c\.alloc\(npages\)", BEHIND,
          "goheapRun(goheapKindCut, base, npages, typ, spanclass, scav)"),
    Place("a take", "mheap.go", "func (h *mheap) allocSpan(", r"base, scav = h\.pages\.alloc\(npages\)", CLOSING,
          "goheapRun(goheapKindTake, base, npages, typ, spanclass, scav)", times=2, which=0),
    Place("a give", "mheap.go", "func (h *mheap) freeSpanLocked(", r"h\.pages\.free\(s\.base\(\), s\.npages(?:, false)?\)", BEFORE,
          "goheapGive(s, typ)"),
    Place("growth", "mheap.go", "func (h *mheap) grow(", r"h\.pages\.grow\((\S+), (.+)\)", BEHIND,
          r"goheapGrowth(\1, \2)", times=2),
    Place("a drop of a page cache", "mpagecache.go", "func (c *pageCache) flush(", r"\*c = pageCache\{\}", BEFORE,
          "goheapDrop(c)"),
    Place("what the scavenger takes", "mgcscavenge.go", "func (p *pageAlloc) scavengeOne(",
          r"addr := chunkBase\(ci\) \+ uintptr\(base\)\*pageSize", BEHIND,
          "goheapScavenger(goheapKindLend, addr, uintptr(npages))"),
    Place("what the scavenger gives back", "mgcscavenge.go", "func (p *pageAlloc) scavengeOne(",
          r"p\.chunkOf\(ci\)\.scavenged\.setRange\(base, npages\)", BEHIND,
          "goheapScavenger(goheapKindScavenged, addr, uintptr(npages))"),
    Place("a span that a processor caches", "mcache.go", "func (c *mcache) refill(", r"c\.alloc\[spc\] = s", BEHIND,
          "goheapCache(s)"),
    Place("a flush of a cache", "mcache.go", "func (c *mcache) releaseAll() {", r"sg := mheap_\.sweepgen", BEFORE,
          "goheapFlush(c)"),
    Place("runtime.ReadMemStats", "mstats.go", "func readmemstats_m(", r"copy\(stats\.BySize\[:\], bySize\[:\]\)", BEHIND,
          "goheapCounts()"),
    Place("a change of GOMAXPROCS", "proc.go", "func procresize(", r"old := gomaxprocs", BEHIND,
          "goheapProcessors(old, nprocs)"),
)


@dataclass(frozen=True)
class Word:
    """A word of our own files that differs between versions: found in one line of the runtime."""

    name: str
    file: str
    function: str
    line: str
    becomes: dict[str, str]


WORDS = (
    Word("typ.PtrBytes", "malloc.go", "func mallocgc(", r"noscan := typ == nil \|\| typ\.(\w+) == 0",
         {"PtrBytes": "typ.PtrBytes", "ptrdata": "typ.ptrdata"}),
    Word("HEAP_LIVE", "mgcsweep.go", "func gcPaceSweeper(", r"heapLiveBasis := (.*)",
         {"gcController.heapLive.Load()": "gcController.heapLive.Load()",
          "atomic.Load64(&gcController.heapLive)": "atomic.Load64(&gcController.heapLive)"}),
)
