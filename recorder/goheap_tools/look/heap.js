// The fifth view: each page of the region at a mark end, from the whole region to one span with its slots.

const FILLS = ["#b2182b", "#d6604d", "#f4a582", "#fddbc7", "#d1e5f0", "#92c5de", "#4393c3", "#2166ac"];
const AGES = ["#fde725", "#a0da39", "#4ac16d", "#1fa187", "#277f8e", "#365c8d", "#46327e", "#440154"];
const WHO = ["#4e79a7", "#f28e2b", "#59a14f", "#b07aa1", "#edc948", "#76b7b2", "#e15759", "#9c755f"];
const KIND_NAMES = {0: ["raised", "never used"], 1: ["free", "free, backed"], 2: ["#a8d8b2", "free, scavenged"], 7: ["#e6d36a", "in a page cache"], 8: ["#9c7bb8", "stacks, and other uses"], 9: ["#7fd1c7", "out to the scavenger"]};
const ZOOMS = [1, 2, 3, 4, 6, 8, 12, 16, 24, 32];
const MAP_HIGH = 480;

// A colour as the bytes of a picture.
function pixel(text) {
  if (!pixel.known.has(text)) {
    const draw = pixel.canvas.getContext("2d", {willReadFrequently: true});
    draw.fillStyle = text;
    draw.fillRect(0, 0, 1, 1);
    pixel.known.set(text, draw.getImageData(0, 0, 1, 1).data);
  }
  return pixel.known.get(text);
}
pixel.known = new Map();
pixel.canvas = document.createElement("canvas");

function kindColour(kind) {
  const [name] = KIND_NAMES[kind] || KIND_NAMES[0];
  return name[0] === "#" ? name : colour(name);
}

function fillStep(heap, span) { return heap.used[span] ? Math.floor((heap.used[span] * 8 - 1) / heap.slots[span]) : 0; }
function ageStep(heap, span) { return Math.min(7, Math.floor(Math.log2(1 + heap.at - 1 - col.spanMade[heap.spans[span]]))); }

// The functions that have the most live objects' bytes in the spans, and who has the most in each span.
function whoIsWhere(heap) {
  if (heap.who) return heap.who;
  const sums = new Map(), of = new Int32Array(heap.count).fill(NOWHERE);
  for (let span = 0; span < heap.count; span++) {
    const mine = new Map();
    for (const one of heap.objectsIn(span)) {
      const fn = col.frameFunction[stackFirst[col.objectStack[one]]];
      mine.set(fn, (mine.get(fn) || 0) + col.objectSize[one]);
    }
    let most = -1;
    for (const [fn, size] of mine) if (size > most) { most = size; of[span] = fn; }
    if (of[span] >= 0) sums.set(of[span], (sums.get(of[span]) || 0) + heap.pages[span]);
  }
  const order = [...sums].sort((a, b) => b[1] - a[1]).slice(0, WHO.length).map(([fn]) => fn);
  heap.who = {of, order};
  return heap.who;
}

// How a span is coloured: its colour, and the legend's rows (colour, text).
const PAINTS = {
  fill: {of: (heap, span) => FILLS[fillStep(heap, span)], legend: () => FILLS.map((one, step) => [one, `${step * 12.5} to ${(step + 1) * 12.5} % of the slots live`])},
  "size class": {of: (heap, span) => classColour(col.spanClass[heap.spans[span]]), legend: heap => classLegend(heap)},
  age: {of: (heap, span) => AGES[ageStep(heap, span)], legend: () => AGES.map((one, step) => [one, step ? `made ${2 ** step}${step < 7 ? ` to ${2 ** (step + 1) - 1}` : " or more"} mark ends ago` : "made since the mark end before"])},
  "function": {of: (heap, span) => whoColour(heap, span), legend: heap => [...whoIsWhere(heap).order.map((fn, at) => [WHO[at], meta.functions[fn]]), ["#8a8f98", "others have the most there"]]},
};

function classColour(spanClass) {
  const size = spanClass >> 1;
  return size ? `hsl(${size * 137 % 360} ${spanClass % 2 ? 45 : 70}% ${spanClass % 2 ? 66 : 48}%)` : spanClass % 2 ? "#f0b070" : "#b3541e";
}

function classLegend(heap) {
  const counts = new Map();
  heap.spans.forEach((one, span) => counts.set(col.spanClass[one], (counts.get(col.spanClass[one]) || 0) + heap.pages[span]));
  return [...counts].sort((a, b) => b[1] - a[1]).slice(0, 10).map(([one, pages]) => [classColour(one), `${classText(one)}: ${counted(pages, "page")}`]);
}

function classText(spanClass) {
  const pointers = spanClass % 2 ? "without pointers" : "with pointers";
  return spanClass < 2 ? `one large object ${pointers}` : `objects of ${number(meta.slots[spanClass >> 1])} bytes ${pointers}`;
}

function whoColour(heap, span) {
  const at = whoIsWhere(heap).order.indexOf(whoIsWhere(heap).of[span]);
  return at < 0 ? "#8a8f98" : WHO[at];
}

// Of each span whether the choice has something in it, or nothing where nothing is chosen.
function chosenSpans(heap) {
  const chosen = chosenStacks(), {kind, name} = state.choice;
  if (!chosen) return null;
  if (kind === "slot size") return heap.slot.map(slot => slotText(slot) === name);
  return heap.holders().map(holders => holders.some(stack => chosen[stack]));
}

// The picture of all pages, a point each.
function pagePoints(heap) {
  const chosen = chosenSpans(heap), paint = PAINTS[state.colour] || PAINTS.fill, points = new Uint8ClampedArray(4 * heap.kinds.length);
  const spanPixels = heap.spans.map((_, span) => faded(pixel(paint.of(heap, span)), chosen && !chosen[span]));
  const kindPixels = Array.from({length: 10}, (_, kind) => faded(pixel(kindColour(kind)), false));
  for (let page = 0; page < heap.kinds.length; page++) {
    const span = heap.owner[page];
    points.set(span >= 0 ? spanPixels[span] : kindPixels[heap.kinds[page]], 4 * page);
  }
  return points;
}

function faded(point, isFar) {
  if (!isFar) return point;
  const paper = pixel(colour("raised"));
  return point.map((one, at) => at === 3 ? 255 : Math.round(0.18 * one + 0.82 * paper[at]));
}

// The map: rows of pages from left to right and down, of which the canvas has those that are in sight.
class PageMap {
  constructor(place) {
    this.canvas = el("canvas", {tabindex: 0, role: "application", "aria-label": "Map of the pages. Arrow keys go from span to span, plus and minus zoom.",
      onclick: event => this.click(event), onmousemove: event => this.hover(event), onmouseleave: () => tip(""), onkeydown: event => this.press(event)});
    this.space = el("div");
    this.box = el("div", {class: "map", onscroll: () => this.paint()}, this.canvas, this.space);
    place.append(this.box);
  }

  draw(heap) {
    this.heap = heap;
    const width = this.box.clientWidth || 600, count = Math.max(1, heap.kinds.length);
    this.scale = state.scale || [...ZOOMS].reverse().find(one => Math.ceil(count / Math.floor(width / one)) * one <= MAP_HIGH) || 1;
    this.columns = Math.max(1, Math.floor(width / this.scale));
    this.rows = Math.ceil(count / this.columns);
    this.high = Math.min(MAP_HIGH, Math.max(40, this.rows * this.scale));
    this.space.style.height = Math.max(0, this.rows * this.scale - this.high) + "px";
    const key = [state.at, state.colour, state.choice.kind, state.choice.name, isDark()].join();
    if (this.key !== key) { this.key = key; this.points = pagePoints(heap); }
    this.paint();
  }

  paint() {
    if (!this.heap) return;
    const draw = canvasOf(this.canvas, this.columns * this.scale, this.high), top = Math.floor(this.box.scrollTop / this.scale);
    const rows = Math.min(this.rows - top, Math.ceil(this.high / this.scale) + 1);
    this.canvas.style.width = this.columns * this.scale + "px";
    if (rows > 0 && this.points.length) {
      const picture = new ImageData(this.columns, rows);
      picture.data.set(this.points.subarray(4 * top * this.columns, 4 * Math.min(this.heap.kinds.length, (top + rows) * this.columns)));
      pixel.canvas.width = this.columns;
      pixel.canvas.height = rows;
      pixel.canvas.getContext("2d", {willReadFrequently: true}).putImageData(picture, 0, 0);
      draw.imageSmoothingEnabled = false;
      draw.drawImage(pixel.canvas, 0, 0, this.columns * this.scale, rows * this.scale);
    }
    this.top = top;
    if (this.scale >= 4) this.borders(draw, top, rows);
    this.outline(draw, top);
  }

  // A thin line behind each span.
  borders(draw, top, rows) {
    draw.fillStyle = colour("raised");
    const end = Math.min(this.heap.kinds.length, (top + rows) * this.columns);
    for (let page = top * this.columns; page < end; page++) {
      const x = page % this.columns * this.scale, y = (Math.floor(page / this.columns) - top) * this.scale;
      draw.fillRect(x, y + this.scale - 1, this.scale, 1);
      if (this.heap.owner[page] < 0 || this.heap.owner[page] !== this.heap.owner[page + 1]) draw.fillRect(x + this.scale - 1, y, 1, this.scale);
    }
  }

  outline(draw, top) {
    if (state.page < 0) return;
    const span = this.heap.owner[state.page], first = span >= 0 ? this.heap.first[span] : state.page, pages = span >= 0 ? this.heap.pages[span] : 1;
    draw.lineWidth = 2;
    for (let page = first; page < first + pages; page++) {
      const x = page % this.columns * this.scale, y = (Math.floor(page / this.columns) - top) * this.scale;
      draw.strokeStyle = colour("ink");
      draw.strokeRect(x - 1, y - 1, this.scale + 1, this.scale + 1);
    }
  }

  pageAt(event) {
    const column = Math.floor(event.offsetX / this.scale), row = Math.floor(event.offsetY / this.scale) + this.top, page = row * this.columns + column;
    return column < this.columns && page < this.heap.kinds.length ? page : -1;
  }

  click(event) { const page = this.pageAt(event); if (page >= 0) set({page}); }

  hover(event) { const page = this.pageAt(event); tip(page < 0 ? "" : toldPage(this.heap, page), event); }

  press(event) {
    const {heap} = this, page = Math.max(state.page, 0), span = heap.owner[page];
    const behind = span >= 0 ? heap.first[span] + heap.pages[span] : page + 1, before = (span >= 0 ? heap.first[span] : page) - 1;
    const moves = {ArrowRight: behind, ArrowLeft: before, ArrowDown: page + this.columns, ArrowUp: page - this.columns};
    if (event.key === "+" || event.key === "-") zoomMap(event.key === "+" ? 1 : -1);
    else if (event.key in moves) this.move(moves[event.key]);
    else return;
    event.preventDefault();
  }

  move(page) {
    if (page < 0 || page >= this.heap.kinds.length) return;
    set({page});
    this.reveal(page);
    tell(toldPage(this.heap, page), this.canvas);
  }

  reveal(page) {
    const y = Math.floor(page / this.columns) * this.scale;
    if (y < this.box.scrollTop || y > this.box.scrollTop + this.high - this.scale) this.box.scrollTop = Math.max(0, y - this.high / 2);
  }
}

function address(page) { return "0x" + (BigInt("0x" + meta.base) + BigInt(page) * BigInt(meta.page)).toString(16); }

function toldPage(heap, page) {
  const span = heap.owner[page];
  if (span < 0) return `page ${number(page)}, ${address(page)}: ${(KIND_NAMES[heap.kinds[page]] || KIND_NAMES[0])[1]}`;
  const who = holderRows(heap, span).slice(0, 3).map(one => `${number(one.objects)} x ${meta.functions[one.fn]}`);
  return `page ${number(heap.first[span])}, ${counted(heap.pages[span], "page")}: ${classText(col.spanClass[heap.spans[span]])}\n${number(heap.used[span])} of ${number(heap.slots[span])} slots live\n${who.join("\n")}`;
}

function zoomMap(by) {
  const at = ZOOMS.findIndex(one => one >= pageMap.scale), next = ZOOMS[Math.min(ZOOMS.length - 1, Math.max(0, at + by))];
  const middle = state.page >= 0 ? state.page : Math.floor((pageMap.box.scrollTop + pageMap.high / 2) / pageMap.scale) * pageMap.columns;
  set({scale: next});
  pageMap.reveal(middle);
}

let pageMap = null;

views.push({
  id: "heap", title: "Heap",
  make(section) {
    section.append(
      el("div", {class: "row"}, select("Colour by", "colour", Object.keys(PAINTS)), button("Zoom in", () => zoomMap(1), {id: "zoom-in"}), button("Zoom out", () => zoomMap(-1), {id: "zoom-out"}), button("Whole region", () => set({scale: 0}), {id: "fit"})),
      el("p", {class: "quiet", id: "heap-told", role: "status"}),
      el("div", {class: "split"}, el("div", {id: "map-place"}), el("div", {id: "span-place"})), el("div", {class: "legend", id: "map-legend"}));
    pageMap = new PageMap(section.querySelector("#map-place"));
    section.querySelector("#map-place").append(section.querySelector("#map-legend"));
  },
  draw(section) {
    const heap = heapAt(state.at);
    section.querySelector("#colour-list").value = PAINTS[state.colour] ? state.colour : "fill";
    pageMap.draw(heap);
    section.querySelector("#heap-told").textContent = toldHeap(heap);
    const shown = [...(PAINTS[state.colour] || PAINTS.fill).legend(heap), ...Object.entries(KIND_NAMES).filter(([kind]) => heap.kinds.includes(Number(kind))).map(([kind, [, name]]) => [kindColour(Number(kind)), name])];
    section.querySelector("#map-legend").replaceChildren(...shown.map(([one, text]) => el("span", {class: "key"}, el("i", {style: `background:${one}`}), text)));
    drawSpan(section.querySelector("#span-place"), heap);
  },
});

function toldHeap(heap) {
  const pages = heap.pages.reduce((sum, one) => sum + one, 0), chosen = chosenSpans(heap);
  const mine = chosen ? ` ${state.choice.name} has objects in ${counted(chosen.filter(Boolean).length, "span")}, which stand out.` : "";
  return `Mark end ${state.at}: ${counted(heap.count, "span")} of ${counted(pages, "page")} kept, of ${number(heap.kinds.length)} pages up to the highest that was ever used; a point for each page of ${number(meta.page)} bytes, in rows of ${number(pageMap.columns)}.`
    + `${mine}${meta.leftOut ? " " + meta.leftOut : ""}`;
}
