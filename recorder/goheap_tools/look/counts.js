// Counts by the profile's buckets, as of a mark end. The sums are those of `leaks`.

const KINDS = ["function", "line", "type", "stack", "slot size", "package"];
const packages = new Map();

function packageNumber(fn) {
  const name = packageOf(meta.functions[fn]);
  if (!packages.has(name)) packages.set(name, packages.size);
  return packages.get(name);
}

// What a bucket's row is, by the kind of the table: its number and its name.
const ROWS = {
  "function": {of: bucket => col.frameFunction[stackFirst[bucket.stack]], name: one => meta.functions[one]},
  line: {of: bucket => stackFirst[bucket.stack], name: one => frameText(one)},
  type: {of: bucket => col.stackType[bucket.stack], name: one => meta.types[one]},
  stack: {of: bucket => bucket.stack, name: one => `${col.stackNumber[one]} ${frameText(stackFirst[one])}`},
  "slot size": {of: bucket => bucket.slot, name: one => slotText(one)},
  "package": {of: bucket => packageNumber(col.frameFunction[stackFirst[bucket.stack]]), name: one => [...packages.keys()][one]},
};

// The buckets of a recording as of a mark end: allocations and frees of each. `front` names the base's columns.
function bucketsAt(at, front = "") {
  const key = front + at;
  if (bucketsAt.known.has(key)) return bucketsAt.known.get(key);
  const count = col[front + "bucketStack"].length, allocs = new Float64Array(count), frees = new Float64Array(count);
  const end = at ? col[front + "changeBegin"][at] : 0, changed = col[front + "changeBucket"];
  const more = col[front + "changeAllocs"], fewer = col[front + "changeFrees"];
  for (let one = 0; one < end; one++) {
    allocs[changed[one]] += more[one];
    frees[changed[one]] += fewer[one];
  }
  if (bucketsAt.known.size > 8) bucketsAt.known.clear();
  bucketsAt.known.set(key, {allocs, frees});
  return bucketsAt.known.get(key);
}
bucketsAt.known = new Map();

// By stack, the sum of what `of` says of each bucket: its slot, its allocations and its frees.
function byStack(at, of, front = "") {
  const {allocs, frees} = bucketsAt(at, front), found = new Float64Array(col.stackNumber.length);
  const stacks = col[front + "bucketStack"], slots = col[front + "bucketSlot"];
  for (let one = 0; one < stacks.length; one++) found[stacks[one]] += of(slots[one], allocs[one], frees[one]);
  return found;
}

const BYTES_LIVE = (slot, allocs, frees) => (allocs - frees) * slot;
const OBJECTS_LIVE = (slot, allocs, frees) => allocs - frees;
const BYTES_MADE = (slot, allocs) => allocs * slot;
const OBJECTS_MADE = (slot, allocs) => allocs;

class Row {
  constructor(id) {
    this.id = id;
    this.allocs = this.frees = this.allocated = this.used = this.cum = this.first = this.before = this.grew = 0;
    this.touched = 0;
  }

  // The mark end is over: how the row stands behind it.
  end(isFirst) {
    if (isFirst) this.first = this.used;
    else if (this.used > this.before + 0.5) this.grew++;
    this.before = this.used;
  }
}

// The rows of a table of this kind at a mark end, with their growth since another one.
function rowsAt(kind, at, from) {
  const key = `${kind} ${at} ${from}`;
  if (rowsAt.key === key) return rowsAt.rows;
  const stacks = col.bucketStack, slots = col.bucketSlot, rows = new Map(), of = new Array(stacks.length);
  for (let bucket = 0; bucket < stacks.length; bucket++) {
    const id = ROWS[kind].of({stack: stacks[bucket], slot: slots[bucket]});
    if (!rows.has(id)) rows.set(id, new Row(id));
    of[bucket] = rows.get(id);
  }
  for (let mark = 1; mark <= at; mark++) takeChanges(mark, of, mark <= from);
  addCum(kind, at, rows);
  rowsAt.key = key;
  rowsAt.rows = [...rows.values()];
  return rowsAt.rows;
}

function takeChanges(mark, of, isFirst) {
  const touched = [], slots = col.bucketSlot;
  for (let one = col.changeBegin[mark - 1]; one < col.changeBegin[mark]; one++) {
    const bucket = col.changeBucket[one], row = of[bucket], slot = slots[bucket];
    row.allocs += col.changeAllocs[one];
    row.frees += col.changeFrees[one];
    row.allocated += col.changeAllocs[one] * slot;
    row.used += (col.changeAllocs[one] - col.changeFrees[one]) * slot;
    if (row.touched !== mark) { row.touched = mark; touched.push(row); }
  }
  for (const row of touched) row.end(isFirst);
}

// What each row has in use together with those that it calls.
function addCum(kind, at, rows) {
  if (kind !== "function" && kind !== "line" && kind !== "package") {
    for (const row of rows.values()) row.cum = row.used;
    return;
  }
  const used = byStack(at, BYTES_LIVE);
  for (let stack = 0; stack < used.length; stack++) {
    if (!used[stack]) continue;
    for (const id of idsOf(kind, stack)) {
      if (!rows.has(id)) rows.set(id, new Row(id));
      rows.get(id).cum += used[stack];
    }
  }
}

// The rows that a stack counts for by `cum`, each once.
function idsOf(kind, stack) {
  if (kind === "function") return stackFunctions[stack];
  if (kind === "package") return new Set(stackFunctions[stack].map(packageNumber));
  return new Set(col.stackFrame.subarray(col.stackBegin[stack], col.stackBegin[stack + 1]));
}

// Of each stack whether the choice has it, or nothing where nothing is chosen.
function chosenStacks() {
  const {kind, name} = state.choice;
  if (!name) return null;
  const key = kind + name;
  if (chosenStacks.key === key) return chosenStacks.found;
  const count = col.stackNumber.length, found = new Uint8Array(count);
  const fn = kind === "function" ? meta.functions.indexOf(name) : -1;
  for (let stack = 0; stack < count; stack++) {
    if (kind === "function") found[stack] = stackFunctions[stack].includes(fn) ? 1 : 0;
    else if (kind === "type") found[stack] = meta.types[col.stackType[stack]] === name ? 1 : 0;
    else if (kind === "stack") found[stack] = String(col.stackNumber[stack]) === name ? 1 : 0;
    else if (kind === "line") found[stack] = [...idsOf("line", stack)].some(frame => frameText(frame) === name) ? 1 : 0;
    else if (kind === "package") found[stack] = stackFunctions[stack].some(one => packageOf(meta.functions[one]) === name) ? 1 : 0;
  }
  chosenStacks.key = key;
  chosenStacks.found = found;
  return found;
}

// The live bytes of the choice at each mark end.
function chosenCourse() {
  const chosen = chosenStacks(), {kind, name} = state.choice, course = new Float64Array(meta.markEnds);
  if (!chosen) return null;
  const counts = Array.from(col.bucketStack, (stack, bucket) => kind === "slot size" ? slotText(col.bucketSlot[bucket]) === name : chosen[stack] === 1);
  let used = 0;
  for (let mark = 1; mark <= meta.markEnds; mark++) {
    for (let one = col.changeBegin[mark - 1]; one < col.changeBegin[mark]; one++) {
      const bucket = col.changeBucket[one];
      if (counts[bucket]) used += (col.changeAllocs[one] - col.changeFrees[one]) * col.bucketSlot[bucket];
    }
    course[mark - 1] = used;
  }
  return course;
}
