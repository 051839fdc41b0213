// The heap at a mark end, as its sweep is done: which spans are kept, who is in each, and what each page is. The counts are those of `pins`.

const UNTOUCHED = 0, FREE = 1, RELEASED = 2, CACHED = 7;
const NOWHERE = -1;

// What each page is at a mark end, up to the highest that was ever in a span or a page cache.
function kindsAt(at) {
  const known = kindsAt.known;
  if (!known || known.at > at) kindsAt.known = {at: 0, kinds: new Uint8Array(meta.top)};
  const {kinds} = kindsAt.known;
  for (let one = col.runBegin[kindsAt.known.at]; one < col.runBegin[at]; one++) kinds.fill(col.runKind[one], col.runPage[one], col.runPage[one] + col.runPages[one]);
  kindsAt.known.at = at;
  return kinds;
}

class Heap {
  constructor(at) {
    this.at = at;
    this.kinds = kindsAt(at).slice(0, at ? col.timeReach[at - 1] : 0);
    this.setSpans();
    this.seat();
    this.fill();
  }

  setSpans() {
    this.spans = [];
    for (let one = 0; one < col.spanPage.length; one++) if (col.spanFirst[one] <= this.at && this.at <= col.spanLast[one]) this.spans.push(one);
    this.count = this.spans.length;
    this.first = this.spans.map(one => col.spanPage[one]);
    this.pages = this.spans.map(one => col.spanPages[one]);
    this.slot = this.spans.map((one, span) => meta.slots[col.spanClass[one] >> 1] || this.pages[span] * meta.page);
    this.slots = this.slot.map((slot, span) => Math.floor(this.pages[span] * meta.page / slot));
    this.owner = new Int32Array(this.kinds.length).fill(NOWHERE);
    this.first.forEach((page, span) => this.owner.fill(span, page, page + this.pages[span]));
  }

  // Finds the span of each live object, and puts those of one span side by side.
  seat() {
    const objects = [], of = [], held = new Int32Array(this.count), born = this.at ? col.born[this.at - 1] : 0;
    const shift = Math.log2(meta.page / meta.aligned);
    for (let one = 0; one < col.objectNumber.length; one++) {
      if (col.objectNumber[one] >= born || col.objectLast[one] < this.at) continue;
      const span = this.owner[col.objectPlace[one] >>> shift];
      if (span === undefined || span < 0) continue;
      objects.push(one);
      of.push(span);
      held[span]++;
    }
    this.begins = new Int32Array(this.count + 1);
    held.forEach((count, span) => { this.begins[span + 1] = this.begins[span] + count; });
    const next = this.begins.slice();
    this.objects = new Int32Array(objects.length);
    objects.forEach((one, at) => { this.objects[next[of[at]]++] = one; });
    this.held = held;
  }

  // Counts the slots that are filled, of which several tiny objects may share one, and the bytes as asked for.
  fill() {
    this.used = new Int32Array(this.count);
    this.asked = new Float64Array(this.count);
    for (let span = 0; span < this.count; span++) {
      const filled = new Uint8Array(this.slots[span]);
      for (let at = this.begins[span]; at < this.begins[span + 1]; at++) {
        const one = this.objects[at], slot = this.slotOf(span, one);
        this.asked[span] += col.objectSize[one];
        if (!filled[slot]) { filled[slot] = 1; this.used[span]++; }
      }
    }
  }

  slotOf(span, one) {
    return Math.floor((col.objectPlace[one] * meta.aligned + col.objectOffset[one] - this.first[span] * meta.page) / this.slot[span]);
  }

  objectsIn(span) { return this.objects.subarray(this.begins[span], this.begins[span + 1]); }

  // The stacks of a span's live objects, each once.
  stacksIn(span) {
    const found = new Set();
    for (const one of this.objectsIn(span)) found.add(col.objectStack[one]);
    return found;
  }

  holders() {
    if (!this.held_by) this.held_by = Array.from({length: this.count}, (_, span) => [...this.stacksIn(span)]);
    return this.held_by;
  }

  // The parts of the backed bytes.
  sums() {
    let used = 0, slots = 0, live = 0, pages = 0, free = 0;
    for (let span = 0; span < this.count; span++) {
      used += this.used[span] * this.slot[span];
      slots += this.slots[span] * this.slot[span];
      live += this.asked[span];
      pages += this.pages[span];
    }
    for (const kind of this.kinds) free += kind === FREE;
    const others = Object.fromEntries(Object.entries(this.at ? meta.others[this.at - 1] : {}).map(([name, count]) => [name, count * meta.page]));
    return {"live objects": live, "free slots": slots - used, rounding: used - live, tails: pages * meta.page - slots, "free pages": free * meta.page, ...others};
  }

  backed() { return this.at ? col.timeBacked[this.at - 1] * meta.page : 0; }

  // What comes back if all objects of these stacks are gone.
  without(stacks) {
    const gone = new Set(), map = this.kinds.map(kind => kind <= RELEASED ? 0 : 1), back = [];
    for (const stack of stacks) gone.add(stack);
    const before = longestRun(map, null);
    this.holders().forEach((holders, span) => { if (holders.length && holders.every(stack => gone.has(stack))) back.push(span); });
    const returned = new Uint8Array(map.length);
    for (const span of back) {
      map.fill(0, this.first[span], this.first[span] + this.pages[span]);
      returned.fill(1, this.first[span], this.first[span] + this.pages[span]);
    }
    return {spans: back.length, pages: back.reduce((sum, span) => sum + this.pages[span], 0), before, after: longestRun(map, null), joined: longestRun(map, returned)};
  }
}

// The longest run of free pages; of those in which there is a page that `of` has.
function longestRun(map, of) {
  let most = 0, run = 0, has = !of;
  for (let page = 0; page <= map.length; page++) {
    if (page < map.length && !map[page]) {
      run++;
      if (of && of[page]) has = true;
      continue;
    }
    if (has && run > most) most = run;
    run = 0;
    has = !of;
  }
  return most;
}

function heapAt(at) {
  if (heapAt.known?.at !== at) heapAt.known = new Heap(at);
  return heapAt.known;
}

// By stack or by function, what is live of each and what it pins; `cum` is of all stacks in which a function is.
function pinRows(at, kind) {
  const key = `${kind} ${at}`;
  if (pinRows.key === key) return pinRows.rows;
  const heap = heapAt(at), rows = new Map(), of = kind === "function" ? stack => col.frameFunction[stackFirst[stack]] : stack => col.stackGroup[stack];
  const row = id => { if (!rows.has(id)) rows.set(id, {id, own: 0, objects: 0, pinned: 0, spans: 0, shared: 0, cumOwn: 0, cumPinned: 0, stack: -1}); return rows.get(id); };
  for (const one of heap.objects) {
    const stack = col.objectStack[one], mine = row(of(stack));
    mine.own += col.objectSize[one];
    mine.objects++;
    if (mine.stack < 0 || col.stackNumber[stack] < col.stackNumber[mine.stack]) mine.stack = stack;
    if (kind === "function") for (const fn of stackFunctions[stack]) row(fn).cumOwn += col.objectSize[one];
  }
  heap.holders().forEach((holders, span) => pinSpan(heap.pages[span] * meta.page, holders, of, row, kind));
  pinRows.key = key;
  pinRows.rows = [...rows.values()];
  return pinRows.rows;
}

function pinSpan(size, holders, of, row, kind) {
  const ids = new Set(holders.map(of));
  for (const id of ids) {
    if (ids.size > 1) row(id).shared += size;
    else {
      row(id).pinned += size;
      row(id).spans++;
    }
  }
  if (kind !== "function" || !holders.length) return;
  for (const fn of stackFunctions[holders[0]]) if (holders.every(stack => stackFunctions[stack].includes(fn))) row(fn).cumPinned += size;
}
