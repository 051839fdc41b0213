// The third view: who allocated what, as a tree of stacks, drawn from the root down.

const METRICS = {
  "live bytes": {text: bytes, of: () => byStack(state.at, BYTES_LIVE)},
  "live objects": {text: number, of: () => byStack(state.at, OBJECTS_LIVE)},
  "allocated bytes": {text: bytes, of: () => byStack(state.at, BYTES_MADE)},
  "allocated objects": {text: number, of: () => byStack(state.at, OBJECTS_MADE)},
  "pinned bytes": {text: bytes, of: null},
  growth: {text: bytes, of: () => change(1)},
  shrinkage: {text: bytes, of: () => change(-1)},
};
const BYS = ["function", "line", "package", "type"];
const ROW_HIGH = 22;

// By how much each stack grew since the other mark end, or shrank.
function change(sign) {
  const now = byStack(state.at, BYTES_LIVE), then = byStack(state.from, BYTES_LIVE);
  return now.map((one, stack) => Math.max(0, sign * (one - then[stack])));
}

// A function without the folders of its package, as there is little room.
function shortName(name) { return name.replace(/^[^\s()[\]{}]*\//, ""); }

// A flame graph on a canvas. `told` says what a node is, `shade` its colour.
class Flame {
  constructor(place, label, {told, shade, chosen}) {
    Object.assign(this, {told, shade, chosen});
    this.canvas = el("canvas", {tabindex: 0, role: "application", "aria-label": `${label}. Arrow keys move, Enter looks into a frame and chooses its function, Escape looks out again.`,
      onclick: event => this.click(event), onmousemove: event => this.hover(event), onmouseleave: () => { this.pointed = null; tip(""); this.paint(); },
      onkeydown: event => this.press(event), onblur: () => { this.focused = null; tip(""); this.paint(); }});
    place.append(this.canvas);
  }

  // Draws this tree, looking into the node of this path (names behind one another).
  draw(root, zoom) {
    this.root = root;
    this.top = root;
    for (const at of zoom.split(".").filter(Boolean)) this.top = this.top.sorted()[Number(at)] || this.top;
    this.focused = this.pointed = null;
    this.paint();
  }

  layout(width) {
    const boxes = [], over = [];
    for (let node = this.top.parent; node; node = node.parent) over.unshift(node);
    over.forEach((node, row) => boxes.push({node, x: 0, w: width, row, dim: true}));
    const place = (node, x, w, row) => {
      boxes.push({node, x, w, row});
      for (const child of node.sorted()) {
        const wide = node.value ? w * child.value / node.value : 0;
        if (wide < 0.6) break;
        place(child, x, wide, row + 1);
        x += wide;
      }
    };
    place(this.top, 0, width, over.length);
    return boxes;
  }

  paint() {
    if (!this.root) return;
    const width = widthOf(this.canvas);
    this.boxes = this.layout(width);
    const rows = this.boxes.reduce((most, box) => Math.max(most, box.row), 0) + 1;
    const draw = canvasOf(this.canvas, width, rows * ROW_HIGH + 1);
    for (const box of this.boxes) this.box(draw, box);
  }

  box(draw, {node, x, w, row, dim}) {
    const y = row * ROW_HIGH, chosen = this.chosen(node);
    draw.globalAlpha = dim ? 0.6 : 1;
    draw.fillStyle = node.parent ? this.shade(node) : colour("soft");
    draw.fillRect(x, y, Math.max(w - 1, 0.6), ROW_HIGH - 1);
    draw.globalAlpha = 1;
    if (chosen || node === this.focused || node === this.pointed) {
      draw.strokeStyle = chosen ? colour("chosen") : colour("ink");
      draw.lineWidth = chosen ? 3 : 1.5;
      draw.strokeRect(x + 1, y + 1, Math.max(w - 3, 0.5), ROW_HIGH - 3);
      draw.lineWidth = 1;
    }
    draw.fillStyle = colour("frame-ink");
    draw.textAlign = "left";
    const text = w > 40 ? `${shortName(node.name)}  ${percent(node.value, this.root.value)}` : shortName(node.name);
    draw.fillText(fitted(draw, text, w - 9), x + 5, y + ROW_HIGH / 2 + 0.5);
  }

  at(event) {
    const row = Math.floor(event.offsetY / ROW_HIGH);
    const box = this.boxes.find(one => one.row === row && event.offsetX >= one.x && event.offsetX < one.x + one.w);
    return box ? box.node : null;
  }

  hover(event) {
    const node = this.at(event);
    if (node !== this.pointed) { this.pointed = node; this.paint(); }
    tip(node ? this.told(node) : "", event);
  }

  zoomOf(node) {
    const path = [];
    for (; node.parent; node = node.parent) path.unshift(node.parent.sorted().indexOf(node));
    return path.join(".");
  }

  go(node) {
    tip("");
    if (!node.parent) set({zoom: ""});
    else this.pick(node, this.zoomOf(node));
  }

  pick(node, zoom) { pickNode(node, zoom); }

  click(event) {
    const node = this.at(event);
    if (node) this.go(node);
  }

  press(event) {
    const here = this.focused || this.top, parent = here.parent, beside = parent ? parent.sorted() : [here];
    const moves = {ArrowDown: () => here.sorted()[0], ArrowUp: () => parent, ArrowRight: () => beside[beside.indexOf(here) + 1], ArrowLeft: () => beside[beside.indexOf(here) - 1]};
    if (event.key in moves) this.focused = moves[event.key]() || here;
    else if (event.key === "Enter" || event.key === " ") this.go(here);
    else if (event.key === "Escape") set({zoom: this.top.parent ? this.zoomOf(this.top.parent) : ""});
    else return;
    event.preventDefault();
    this.paint();
    if (this.focused) tell(this.told(this.focused), this.canvas);
  }
}

// Looks into a frame, and chooses what it is.
function pickNode(node, zoom) {
  const kind = String(node.key)[0] === "t" ? "type" : state.by === "line" ? "line" : state.by === "package" ? "package" : "function";
  set({zoom, choice: {kind, name: node.name}});
}

function isChosenNode(node) {
  const {kind, name} = state.choice;
  if (!name || !node.parent) return false;
  if (node.name === name) return true;
  return kind === "function" && state.by === "line" && node.name.startsWith(name + " ") || kind === "package" && state.by === "function" && packageOf(node.name) === name;
}

function treeNow() {
  const key = [state.metric, state.at, state.from, state.by, state.inverted].join();
  if (treeNow.key !== key) {
    const metric = METRICS[state.metric] || METRICS["live bytes"];
    treeNow.tree = metric.of ? treeOf(metric.of(), state.by, state.inverted) : pinnedTree(state.at, state.by, state.inverted);
    treeNow.key = key;
  }
  return treeNow.tree;
}

function isFound(node) { return state.find !== "" && node.name.toLowerCase().includes(state.find.toLowerCase()); }

// What the frames that are searched for come to, those in others once.
function foundValue(node) {
  if (isFound(node)) return node.value;
  let sum = 0;
  for (const child of node.children.values()) sum += foundValue(child);
  return sum;
}

function toldNode(node) {
  const text = (METRICS[state.metric] || METRICS["live bytes"]).text, all = treeNow();
  return `${node.name}\n${text(node.value)}, ${percent(node.value, all.value)} of all` + (node.parent && node.parent.parent ? `, ${percent(node.value, node.parent.value)} of the frame above` : "")
    + (node.self && node.children.size ? `\n${text(node.self)} of its own` : "");
}

let flame = null;

views.push({
  id: "flame", title: "Flame graph",
  make(section) {
    const search = el("input", {type: "search", id: "flame-find", placeholder: "part of a name", oninput: () => set({find: search.value})});
    section.append(
      el("div", {class: "row"}, select("What", "metric", Object.keys(METRICS), {zoom: ""}), select("by", "by", BYS, {zoom: ""}),
        button("Inverted", () => set({inverted: !state.inverted, zoom: ""}), {id: "inverted", title: "From the functions that allocate to those that call them"}),
        el("label", {for: "flame-find"}, "Search"), search, button("Whole", () => set({zoom: ""}), {id: "whole"})),
      el("p", {class: "quiet", id: "flame-told", role: "status"}), el("figure", {id: "flame-place"}));
    flame = new Flame(section.querySelector("#flame-place"), "Flame graph", {
      told: toldNode, chosen: isChosenNode, shade: node => isFound(node) ? colour("chosen-soft") : colourOf(node.name)});
  },
  draw(section) {
    section.querySelector("#metric-list").value = state.metric;
    section.querySelector("#by-list").value = state.by;
    section.querySelector("#inverted").setAttribute("aria-pressed", state.inverted);
    const search = section.querySelector("#flame-find");
    if (search.value !== state.find) search.value = state.find;
    const tree = treeNow();
    section.querySelector("#flame-told").textContent = toldFlame(tree);
    flame.draw(tree, state.zoom);
  },
});

function toldFlame(tree) {
  const text = (METRICS[state.metric] || METRICS["live bytes"]).text;
  const since = state.metric === "growth" || state.metric === "shrinkage" ? ` since mark end ${state.from}` : "";
  const what = {"pinned bytes": ": the spans that are kept, each under the frame that all its objects have in common, so that they would come back without what that frame allocated",
    growth: " of the stacks that grew", shrinkage: " of the stacks that shrank"}[state.metric] || "";
  const found = state.find ? ` Frames with “${state.find}”: ${text(foundValue(tree))}, ${percent(foundValue(tree), tree.value)}.` : "";
  return `${text(tree.value)} ${state.metric}${what} at mark end ${state.at}${since}. A click looks into a frame and chooses it; a click on a frame above looks out again.${found}`;
}
