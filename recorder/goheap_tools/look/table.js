// The fourth view: the same numbers in a table.

const COLUMNS = [
  {id: "flat", title: "flat", of: row => row.used, text: bytes, says: "bytes in use, in slots"},
  {id: "share", title: "flat%", of: row => row.used, text: (value, sums) => percent(value, sums.used), says: "of all bytes in use"},
  {id: "cum", title: "cum", of: row => row.cum, text: bytes, says: "with what those that it calls have in use", only: ["function", "line", "package"]},
  {id: "objects", title: "objects", of: row => row.allocs - row.frees, text: number, says: "in use"},
  {id: "allocated", title: "allocated", of: row => row.allocated, text: bytes, says: "bytes allocated so far, in slots"},
  {id: "allocs", title: "allocs", of: row => row.allocs, text: number, says: "objects allocated so far"},
  {id: "growth", title: "growth", of: row => row.used - row.first, text: value => signed(value), says: "by how much flat grew since the other mark end"},
  {id: "grew", title: "grew", of: row => row.grew, text: (value, sums) => `${value}/${Math.max(state.at - state.from, 0)}`, says: "at how many of the mark ends since it grew"},
];
const MORE = 200;
let shownRows = MORE;

function columnsNow() { return COLUMNS.filter(one => !one.only || one.only.includes(state.rows)); }

// The rows as they are sorted and filtered, each with its name; and the sums of all.
function tableNow() {
  const name = ROWS[state.rows].name, all = rowsAt(state.rows, state.at, Math.min(state.from, state.at));
  const by = state.sort.replace("-", ""), column = COLUMNS.find(one => one.id === by), sign = state.sort.startsWith("-") ? -1 : 1;
  const words = state.filter.toLowerCase();
  const rows = all.filter(row => by === "allocated" || by === "allocs" ? row.allocs : row.cum > 0.5 || row.used > 0.5 || by === "growth" && row.used !== row.first)
    .map(row => ({row, name: name(row.id)})).filter(one => one.name.toLowerCase().includes(words));
  const order = column ? (a, b) => sign * (column.of(b.row) - column.of(a.row)) || b.row.used - a.row.used || (a.name < b.name ? -1 : 1) : (a, b) => sign * (a.name < b.name ? -1 : 1);
  return {rows: rows.sort(order), sums: {used: all.reduce((sum, row) => sum + row.used, 0), allocated: all.reduce((sum, row) => sum + row.allocated, 0)}};
}

function sortBy(id) { set({sort: state.sort === id ? "-" + id : id}); }

function headCell(id, title, says, sort) {
  const order = sort === id ? "descending" : sort === "-" + id ? "ascending" : "none";
  return {order, title, says, id};
}

function heads(columns, sort, does, last) {
  const cells = columns.map(one => headCell(one.id, one.title, one.says, sort));
  return el("tr", {}, cells.map(one => el("th", {scope: "col", "aria-sort": one.order, title: one.says}, button(one.title, () => does(one.id), {"data-sort": one.id}))),
    el("th", {class: "name", scope: "col", "aria-sort": sort === "name" ? "ascending" : sort === "-name" ? "descending" : "none"}, button(last, () => does("name"), {"data-sort": "name"})));
}

// A row that is chosen by a click, or by Enter or the space bar.
function choosingRow(kind, name, cells, also = {}) {
  const does = () => choose(kind, name);
  return el("tr", {tabindex: 0, "aria-selected": isChosen(kind, name), class: isChosen(kind, name) ? "chosen" : null, "data-name": name, onclick: does,
    onkeydown: event => { if (event.key === "Enter" || event.key === " ") { event.preventDefault(); does(); } }, ...also}, cells);
}

function tableRow({row, name}, columns, sums) {
  const cells = columns.map(column => {
    const value = column.of(row), text = column.text(value, sums);
    return el("td", {}, column.id === "growth" && value ? el("span", {class: value > 0 ? "up" : "down"}, text) : text);
  });
  return choosingRow(state.rows, state.rows === "stack" ? String(col.stackNumber[row.id]) : name, [...cells, el("td", {class: "name", title: name}, name)]);
}

function tableAsRows() {
  const columns = columnsNow(), {rows, sums} = tableNow();
  return {plain: [[...columns.map(one => one.title), state.rows], ...rows.map(({row, name}) => [...columns.map(one => one.text(one.of(row), sums)), name])],
    numbers: [[...columns.map(one => one.id), state.rows], ...rows.map(({row, name}) => [...columns.map(one => one.id === "share" ? one.text(one.of(row), sums) : one.of(row)), name])]};
}

views.push({
  id: "table", title: "Table",
  make(section) {
    const filter = el("input", {type: "search", id: "filter", placeholder: "part of a name", oninput: () => { shownRows = MORE; set({filter: filter.value}); }});
    section.append(
      el("div", {class: "row"}, select("A row for each", "rows", KINDS), el("label", {for: "filter"}, "Filter"), filter,
        button("Copy as text", event => copy(plainText(tableAsRows().plain), event.target), {id: "copy-text"}), button("Copy as CSV", event => copy(csv(tableAsRows().numbers), event.target), {id: "copy-csv"})),
      el("p", {class: "quiet", role: "status", id: "table-told"}),
      el("div", {class: "scroll", tabindex: -1}, el("table", {id: "rows"}, el("caption", {class: "unseen"}, "What is in use"), el("thead"), el("tbody"))),
      el("p", {}, button("Show more rows", () => { shownRows += 5 * MORE; show(); }, {id: "more"})));
  },
  draw(section) {
    section.querySelector("#rows-list").value = state.rows;
    const filter = section.querySelector("#filter");
    if (filter.value !== state.filter) filter.value = state.filter;
    const columns = columnsNow(), {rows, sums} = tableNow(), shown = rows.slice(0, shownRows);
    const used = shown.reduce((sum, one) => sum + one.row.used, 0);
    section.querySelector("#table-told").textContent = `Mark end ${state.at} of ${meta.markEnds}: ${bytes(sums.used)} in use, ${bytes(sums.allocated)} allocated; all objects of the trace. `
      + `Showing ${shown.length} of ${rows.length}, accounting for ${bytes(used)}, ${percent(used, sums.used)}. Growth is since mark end ${state.from}.`;
    section.querySelector("thead").replaceChildren(heads(columns, state.sort, sortBy, state.rows));
    section.querySelector("tbody").replaceChildren(...shown.map(one => tableRow(one, columns, sums)));
    section.querySelector("#more").hidden = rows.length <= shownRows;
  },
});
