// What is chosen: the view, the mark end, a function or another row. The address bar keeps it, behind the #.

const USUAL = {
  view: "summary", at: 0, from: 1, metric: "live bytes", by: "function", inverted: false, zoom: "", rows: "function", sort: "flat", filter: "",
  colour: "fill", page: -1, scale: 0, pinRows: "function", without: "", twoRows: "normalised", find: "",
};
const state = {...USUAL, choice: {kind: "function", name: ""}};
const NUMBERS = ["at", "from", "page", "scale"];

function usualOf(name) {
  return name === "at" ? meta.markEnds : USUAL[name];
}

// The state as the fragment of the address.
function fragment() {
  const words = new URLSearchParams();
  for (const name of Object.keys(USUAL)) {
    if (state[name] !== usualOf(name)) words.set(name, state[name] === true ? "yes" : state[name]);
  }
  if (state.choice.name) words.set("choice", `${state.choice.kind}:${state.choice.name}`);
  return "#" + words.toString();
}

function readFragment() {
  const words = new URLSearchParams(location.hash.slice(1));
  for (const name of Object.keys(USUAL)) {
    const word = words.get(name);
    if (word === null) state[name] = usualOf(name);
    else if (NUMBERS.includes(name)) state[name] = Number.parseInt(word, 10) || 0;
    else state[name] = typeof USUAL[name] === "boolean" ? word === "yes" : word;
  }
  state.at = Math.min(Math.max(state.at, meta.markEnds ? 1 : 0), meta.markEnds);
  state.from = Math.min(Math.max(state.from, 1), Math.max(meta.markEnds, 1));
  if (!views.some(view => view.id === state.view)) state.view = "summary";
  const choice = words.get("choice") || "", cut = choice.indexOf(":");
  state.choice = {kind: cut > 0 ? choice.slice(0, cut) : "function", name: choice.slice(cut + 1)};
}

const views = [];

// Changes the state, and draws anew what shows it.
function set(changes) {
  const moved = "view" in changes && changes.view !== state.view;
  Object.assign(state, changes);
  const address = fragment();
  if (address !== (location.hash || "#")) {
    if (moved || "choice" in changes) history.pushState(null, "", address);
    else history.replaceState(null, "", address);
  }
  show();
}

// Chooses a function, or a row of another kind; what is chosen already is chosen no more.
function choose(kind, name, also = {}) {
  const same = state.choice.kind === kind && state.choice.name === name;
  set({choice: {kind, name: same && !Object.keys(also).length ? "" : name}, ...also});
}

function isChosen(kind, name) {
  return state.choice.kind === kind && state.choice.name === name;
}
