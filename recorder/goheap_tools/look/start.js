// Puts the page together, and draws what is to be seen.

function heading(view) { return el("h2", {id: `title-${view.id}`}, view.title); }

function makeViews() {
  const tabs = document.getElementById("tabs"), main = document.getElementById("main");
  for (const view of views) {
    view.tab = el("button", {type: "button", role: "tab", id: `tab-${view.id}`, "aria-controls": `view-${view.id}`, onclick: () => set({view: view.id}), onkeydown: moveTab}, view.title);
    view.section = el("section", {role: "tabpanel", id: `view-${view.id}`, "aria-labelledby": `title-${view.id}`, hidden: true}, heading(view));
    tabs.append(view.tab);
    main.append(view.section);
  }
}

function moveTab(event) {
  const by = {ArrowLeft: -1, ArrowRight: 1}[event.key];
  if (!by) return;
  const at = views.findIndex(view => view.id === state.view), next = views[(at + by + views.length) % views.length];
  set({view: next.id});
  next.tab.focus();
}

function drawView(view) {
  if (!view.made) {
    view.made = true;
    view.make(view.section);
  }
  view.draw(view.section);
}

function show() {
  if (!show.ready) return;
  tip("");
  for (const view of views) {
    const isShown = view.id === state.view;
    view.section.hidden = !isShown;
    view.tab.setAttribute("aria-selected", isShown);
    view.tab.tabIndex = isShown ? 0 : -1;
  }
  showTools();
  const focused = document.activeElement, name = focused?.closest?.("tr")?.dataset.name;
  const view = views.find(one => one.id === state.view);
  drawView(view);
  if (name !== undefined && !document.contains(focused)) [...view.section.querySelectorAll("tr[data-name]")].find(row => row.dataset.name === name)?.focus();
  document.body.dataset.drawn = `${state.view} ${++show.times}`;
}
show.times = 0;

function showTools() {
  const at = document.getElementById("at"), from = document.getElementById("from");
  at.value = state.at;
  document.getElementById("at-text").textContent = `${number(state.at)} of ${number(meta.markEnds)}`;
  from.value = state.from;
  document.getElementById("chosen").hidden = !state.choice.name;
  document.getElementById("chosen-text").textContent = state.choice.name;
  document.getElementById("chosen-text").title = `${state.choice.kind}: ${state.choice.name}`;
}

function makeTools() {
  const at = document.getElementById("at"), from = document.getElementById("from"), find = document.getElementById("find");
  at.max = Math.max(meta.markEnds, 1);
  at.addEventListener("input", () => set({at: Math.min(Number(at.value), meta.markEnds)}));
  document.getElementById("before").addEventListener("click", () => set({at: Math.max(Math.min(1, meta.markEnds), state.at - 1)}));
  document.getElementById("behind").addEventListener("click", () => set({at: Math.min(meta.markEnds, state.at + 1)}));
  for (let mark = 1; mark <= Math.min(meta.markEnds, 2000); mark++) from.append(el("option", {value: mark}, mark));
  from.addEventListener("change", () => set({from: Number(from.value)}));
  document.getElementById("names").append(...meta.functions.slice(0, 3000).map(name => el("option", {value: name})));
  find.addEventListener("change", () => { if (meta.functions.includes(find.value)) { set({choice: {kind: "function", name: find.value}}); find.value = ""; } });
  document.getElementById("skip").addEventListener("click", () => document.getElementById("main").focus());
  document.getElementById("forget").addEventListener("click", () => set({choice: {kind: "function", name: ""}}));
}

// A digit goes to a view, where no text is written.
function pressKey(event) {
  if (event.ctrlKey || event.metaKey || event.altKey || /^(INPUT|SELECT|TEXTAREA)$/.test(event.target.tagName)) return;
  const view = views[Number(event.key) - 1];
  if (view) set({view: view.id});
}

// On paper all views stand one behind the other, in the colours of day.
function printAll(isPrinting) {
  isDark.printing = isPrinting;
  colours.clear();
  if (pageMap) pageMap.key = null;
  if (isPrinting) {
    for (const view of views) { view.section.hidden = false; drawView(view); }
  } else show();
}

function fail(error) {
  document.getElementById("main").replaceChildren(el("p", {class: "wide"}, `The page cannot be drawn: ${error.message || error}. It needs a browser of 2023 or later (DecompressionStream).`));
  throw error;
}

async function begin() {
  await readData();
  readFragment();
  makeViews();
  makeTools();
  addEventListener("hashchange", () => { readFragment(); show(); });
  addEventListener("popstate", () => { readFragment(); show(); });
  addEventListener("keydown", pressKey);
  addEventListener("beforeprint", () => printAll(true));
  addEventListener("afterprint", () => printAll(false));
  let wide = innerWidth;
  addEventListener("resize", () => { if (innerWidth !== wide) { wide = innerWidth; show(); } });
  show.ready = true;
  show();
}

begin().catch(fail);
