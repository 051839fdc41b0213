// The sixth view: whose objects keep which pages, and what would come back without them.

const PART_NAMES = {"live objects": ["live objects, as asked for", "live"], "free slots": ["free slots in kept spans", "slots"], rounding: ["rounding: the slots of live objects less their bytes", "rounding"],
  tails: ["tails of spans, behind their last slots", "quiet"], "free pages": ["free pages that are still backed", "free"]};
const PIN_COLUMNS = [
  {id: "own", title: "own", of: row => row.own, says: "bytes of its live objects, as asked for"},
  {id: "pinned", title: "pinned", of: row => row.pinned, says: "bytes of the spans that hold its objects alone"},
  {id: "ratio", title: "ratio", of: row => row.own ? row.pinned / row.own : 0, says: "pinned bytes for each own byte"},
  {id: "spans", title: "spans", of: row => row.spans, says: "that hold its objects alone"},
  {id: "shared", title: "shared", of: row => row.shared, says: "bytes of the spans that hold its objects and others"},
  {id: "objects", title: "objects", of: row => row.objects, says: "that are live"},
  {id: "cumOwn", title: "cum own", of: row => row.cumOwn, says: "with those that what it calls allocated", only: "function"},
  {id: "cumPinned", title: "cum pinned", of: row => row.cumPinned, says: "by all stacks in which it is, as if they were one", only: "function"},
];
let pinSort = "pinned", shownPins = MORE;

function pinName(row) { return state.pinRows === "function" ? meta.functions[row.id] : `${col.stackNumber[row.stack]} ${frameText(stackFirst[row.stack])}`; }

// What is to be gone: functions, or stacks by their numbers.
function withoutWords() { return state.without ? state.without.split("|") : []; }

function toggleWithout(word) {
  const words = withoutWords();
  set({without: (words.includes(word) ? words.filter(one => one !== word) : [...words, word]).join("|")});
}

// The stacks that the words name: each number with the others of the same frames, each function with all stacks in which it is.
function stacksNamed(words) {
  const found = new Set(), functions = words.map(word => meta.functions.indexOf(word)).filter(fn => fn >= 0);
  const groups = new Set(Array.from(col.stackNumber, (one, stack) => words.includes(String(one)) ? col.stackGroup[stack] : -1));
  for (let stack = 0; stack < col.stackNumber.length; stack++) {
    const hidden = col.hiddenFunction.subarray(col.hiddenBegin[stack], col.hiddenBegin[stack + 1]);
    if (groups.has(col.stackGroup[stack]) || functions.some(fn => stackFunctions[stack].includes(fn) || hidden.includes(fn))) found.add(stack);
  }
  return found;
}

function withoutPart(heap) {
  const words = withoutWords();
  if (!words.length) return el("p", {class: "quiet"}, "Tick functions or stacks below to see what would come back if their objects were gone, as `pins --without` tells.");
  const stacks = stacksNamed(words), back = heap.without(stacks);
  let objects = 0, own = 0;
  for (const one of heap.objects) if (stacks.has(col.objectStack[one])) { objects++; own += col.objectSize[one]; }
  return el("div", {class: "without", role: "status"},
    el("p", {}, el("b", {}, `Without ${words.join(" ")}`), ` (${counted(objects, "live object")} of ${number(own)} bytes): ${counted(back.spans, "span")} of ${counted(back.pages, "page")} (${number(back.pages * meta.page)} bytes) would come back.`),
    el("p", {}, `The longest run of free pages with one of them: ${number(back.joined)}; of all free pages: ${number(back.after)}, now ${number(back.before)}. `, button("Clear", () => set({without: ""}), {id: "clear-without"})));
}

function sumsPart(heap) {
  const sums = heap.sums(), backed = heap.backed(), colourOfPart = name => `var(--${(PART_NAMES[name] || [0, "spans"])[1]})`;
  const bar = el("div", {class: "stack", role: "img", "aria-label": "The parts of the backed bytes, as in the table"}, Object.entries(sums).map(([name, size]) => el("i", {style: `width:${100 * size / (backed || 1)}%;background:${colourOfPart(name)}`, title: `${name}: ${number(size)}`})));
  const rows = [...Object.entries(sums), ["backed", backed]].map(([name, size]) => el("tr", {"data-part": name}, el("td", {}, number(size)), el("td", {}, percent(size, backed)),
    el("td", {class: "name"}, name === "backed" ? null : el("span", {class: "swatch", style: `background:${colourOfPart(name)}`}), " ", (PART_NAMES[name] || [name])[0])));
  return [bar, el("table", {class: "fixed", id: "sums"}, el("caption", {class: "unseen"}, "What the backed bytes are"), el("thead", {}, el("tr", {}, ["bytes", "%"].map(one => el("th", {scope: "col"}, one)), el("th", {scope: "col", class: "name"}, "of the backed bytes"))), el("tbody", {}, rows))];
}

// The spans of each size class: how many are filled to which eighth.
function classesPart(heap) {
  const rows = new Map();
  for (let span = 0; span < heap.count; span++) {
    const size = col.spanClass[heap.spans[span]] >> 1;
    if (!rows.has(size)) rows.set(size, {size, spans: 0, objects: 0, steps: new Array(8).fill(0), free: 0});
    const row = rows.get(size);
    row.spans++;
    row.objects += heap.held[span];
    row.steps[fillStep(heap, span)]++;
    row.free += (heap.slots[span] - heap.used[span]) * heap.slot[span];
  }
  const shown = [...rows.values()].sort((a, b) => a.size - b.size).map(row => el("tr", {"data-class": row.size}, [meta.slots[row.size] ? number(meta.slots[row.size]) : "large", number(row.spans), number(row.objects), ...row.steps.map(one => one || "·"), number(row.free)].map(one => el("td", {}, one))));
  const titles = ["slot", "spans", "objects", ...[1, 2, 3, 4, 5, 6, 7, 8].map(one => `${one}/8`), "free slots"];
  return el("details", {}, el("summary", {}, "By size class: how many spans are filled to an eighth of their slots, to two .."), el("table", {class: "fixed", id: "classes"}, el("thead", {}, el("tr", {}, titles.map(one => el("th", {scope: "col"}, one)))), el("tbody", {}, shown)));
}

function pinRow(row, columns) {
  const name = pinName(row), word = state.pinRows === "function" ? name : String(col.stackNumber[row.stack]), kind = state.pinRows === "function" ? "function" : "stack";
  const tick = el("input", {type: "checkbox", "aria-label": `without ${name}`, checked: withoutWords().includes(word), "data-without": word, onclick: event => { event.stopPropagation(); toggleWithout(word); }, onkeydown: event => event.stopPropagation()});
  return choosingRow(kind, word, [el("td", {}, tick), ...columns.map(one => el("td", {}, one.id === "ratio" ? (row.own ? number(one.of(row)) : "-") : number(one.of(row)))), el("td", {class: "name", title: name}, name)]);
}

function sortedPins() {
  const by = PIN_COLUMNS.find(one => one.id === pinSort.replace("-", "")) || PIN_COLUMNS[1], sign = pinSort.startsWith("-") ? -1 : 1;
  return [...pinRows(state.at, state.pinRows)].sort((a, b) => sign * (by.of(b) - by.of(a)) || b.cumPinned - a.cumPinned || b.own - a.own || a.id - b.id);
}

function drawPins(section, heap) {
  const columns = PIN_COLUMNS.filter(one => !one.only || one.only === state.pinRows), rows = sortedPins();
  section.querySelector("#pin-rows-head").replaceChildren(el("tr", {}, el("th", {scope: "col"}, "without"), columns.map(one => el("th", {scope: "col", title: one.says, "aria-sort": pinSort === one.id ? "descending" : pinSort === "-" + one.id ? "ascending" : "none"},
    button(one.title, () => { pinSort = pinSort === one.id ? "-" + one.id : one.id; show(); }, {"data-pins": one.id}))), el("th", {scope: "col", class: "name"}, state.pinRows)));
  section.querySelector("#pin-rows-body").replaceChildren(...rows.slice(0, shownPins).map(row => pinRow(row, columns)));
  section.querySelector("#more-pins").hidden = rows.length <= shownPins;
  section.querySelector("#pins-told").textContent = `Mark end ${state.at} of ${meta.markEnds}: ${counted(heap.backed() / meta.page, "page")} backed, ${number(heap.pages.reduce((sum, one) => sum + one, 0))} of them in ${counted(heap.count, "span")} kept.`
    + (meta.leftOut && state.at < meta.markEnds ? " " + meta.leftOut : "");
}

views.push({
  id: "pins", title: "Pins",
  make(section) {
    section.append(el("p", {class: "quiet"}, "A span goes back only when no object in it lives, so that a few objects can keep many pages. What is pinned by one are the spans that hold nothing else."),
      el("p", {id: "pins-told", role: "status"}), el("div", {id: "pin-sums"}), el("div", {id: "pin-classes"}), el("div", {id: "pin-without"}),
      el("div", {class: "row"}, select("A row for each", "pinRows", ["function", "stack"], {without: ""})),
      el("div", {class: "scroll", tabindex: -1}, el("table", {id: "pin-rows"}, el("caption", {class: "unseen"}, "Who pins what"), el("thead", {id: "pin-rows-head"}), el("tbody", {id: "pin-rows-body"}))),
      el("p", {}, button("Show more rows", () => { shownPins += 5 * MORE; show(); }, {id: "more-pins"})));
  },
  draw(section) {
    const heap = heapAt(state.at), open = section.querySelector("details")?.open;
    section.querySelector("#pinRows-list").value = state.pinRows;
    section.querySelector("#pin-sums").replaceChildren(...sumsPart(heap));
    section.querySelector("#pin-classes").replaceChildren(classesPart(heap));
    section.querySelector("details").open = Boolean(open);
    section.querySelector("#pin-without").replaceChildren(withoutPart(heap));
    drawPins(section, heap);
  },
});
