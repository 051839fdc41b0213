// The seventh view: this recording beside another one, the base.

const TWO_COLUMNS = [
  {id: "base", title: "base", of: row => row.base, text: bytes, says: "bytes in use at the base's last mark end, in slots"},
  {id: "live", title: "now", of: row => row.live, text: bytes, says: "bytes in use at the last mark end here"},
  {id: "change", title: "change", of: row => row.live - row.base, text: value => signed(value), says: "now less base"},
  {id: "normalised", title: "normalised", of: row => row.normalised, text: value => signed(value), says: "now less what the base would have if it had allocated as many objects"},
  {id: "objects", title: "objects", of: row => row.objects - row.base_objects, text: value => signed(value, number), says: "change of the objects in use"},
  {id: "allocated", title: "allocated", of: row => row.allocated - row.base_allocated, text: value => signed(value), says: "change of the bytes allocated"},
];
const WIDE = {now: [BYTES_LIVE, ""], base: [BYTES_LIVE, "base"]};
let twoFlame = null, twoWide = "now";

function ratioOfTwo() { return meta.two.ratio; }

function twoRow(row) {
  const cells = TWO_COLUMNS.map(one => {
    const value = one.of(row), text = one.text(value);
    return el("td", {}, ["change", "normalised"].includes(one.id) && value ? el("span", {class: value > 0 ? "up" : "down"}, text) : text);
  });
  const is = row.base ? row.live ? "" : "gone" : row.live ? "new" : "";
  return choosingRow("function", row.name, [...cells, el("td", {}, is), el("td", {class: "name", title: row.name}, row.name)]);
}

function sortedTwo() {
  const by = TWO_COLUMNS.find(one => one.id === state.twoRows.replace("-", "")) || TWO_COLUMNS[3], sign = state.twoRows.startsWith("-") ? -1 : 1;
  return [...meta.two.rows].sort((a, b) => sign * (by.of(b) - by.of(a)) || (a.name < b.name ? -1 : 1));
}

function treeOfTwo() {
  const key = [twoWide, state.by, state.inverted].join();
  if (treeOfTwo.key !== key) {
    const now = byStack(meta.markEnds, BYTES_LIVE), base = byStack(meta.two.markEnds, BYTES_LIVE, "base");
    treeOfTwo.tree = twoWide === "now" ? treeOf(now, state.by, state.inverted, base) : treeOf(base, state.by, state.inverted, now);
    treeOfTwo.key = key;
  }
  return treeOfTwo.tree;
}

// What a node has here and in the base, and by how much it grew, as the objects allocated go.
function sidesOf(node) {
  const [now, base] = twoWide === "now" ? [node.value, node.other] : [node.other, node.value];
  return {now, base, grew: now - base * ratioOfTwo()};
}

function shadeOfTwo(node) {
  const {now, base, grew} = sidesOf(node), part = Math.min(1, Math.abs(grew) / (Math.max(now, base) || 1)), light = isDark() ? 24 + 14 * part : 94 - 24 * part;
  return `hsl(${grew > 0 ? 8 : 212} ${Math.round(12 + 68 * part)}% ${light}%)`;
}

function toldTwo(node) {
  const {now, base, grew} = sidesOf(node);
  return `${node.name}\nnow ${bytes(now)}, base ${bytes(base)}\n${signed(now - base)}; normalised ${signed(grew)}`;
}

views.push({
  id: "two", title: "Two recordings",
  make(section) {
    if (!meta.two) {
      section.append(el("p", {}, "This page is of one recording. ", el("code", {}, "look --base OLD NEW"), " makes one of two: what grew, what is new, what is gone."));
      return;
    }
    section.append(el("p", {}, meta.two.told), el("div", {class: "row"}, button("Copy as CSV", event => copy(csv(twoAsRows()), event.target), {id: "copy-two"})),
      el("div", {class: "scroll short", tabindex: -1}, el("table", {id: "two-rows"}, el("caption", {class: "unseen"}, "By function"), el("thead"), el("tbody"))),
      el("h3", {}, "Difference"), el("p", {class: "quiet"}, "Red has grown since the base, blue has shrunk, as the objects allocated go; what is gone is in the graph of the base alone."),
      el("div", {class: "row"}, Object.keys(WIDE).map(one => button(`As wide as ${one}`, () => { twoWide = one; set({zoom: ""}); }, {"data-wide": one})), button("Inverted", () => set({inverted: !state.inverted, zoom: ""}), {id: "two-inverted"})),
      el("figure", {id: "two-place"}));
    twoFlame = new Flame(section.querySelector("#two-place"), "Difference flame graph", {told: toldTwo, shade: shadeOfTwo, chosen: isChosenNode});
  },
  draw(section) {
    if (!meta.two) return;
    section.querySelector("thead").replaceChildren(heads([...TWO_COLUMNS, {id: "", title: "", says: "new, or gone"}], state.twoRows, id => set({twoRows: state.twoRows === id ? "-" + id : id}), "function"));
    section.querySelector("tbody").replaceChildren(...sortedTwo().slice(0, 5 * MORE).map(twoRow));
    section.querySelectorAll("[data-wide]").forEach(one => one.setAttribute("aria-pressed", one.dataset.wide === twoWide));
    section.querySelector("#two-inverted").setAttribute("aria-pressed", state.inverted);
    twoFlame.draw(treeOfTwo(), state.zoom);
  },
});

function twoAsRows() { return [[...TWO_COLUMNS.map(one => one.id), "function"], ...sortedTwo().map(row => [...TWO_COLUMNS.map(one => one.of(row)), row.name])]; }
