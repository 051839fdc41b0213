// The first view: what is the matter, in sentences that can be checked.

const LABELS = {bad: "Look here:", good: "Well:", fact: "", limit: ""};

function sentence(one) {
  const cut = one.selection.indexOf(":"), name = one.selection.slice(cut + 1), view = views.find(each => each.id === one.view);
  const go = () => set({view: one.view, at: meta.markEnds, ...(name ? {choice: {kind: one.selection.slice(0, cut), name}} : {}), ...(one.view === "table" && name ? {rows: "function", sort: "growth"} : {})});
  return el("li", {class: one.kind},
    LABELS[one.kind] ? el("span", {class: "label"}, LABELS[one.kind]) : null, one.text,
    view || one.check ? el("div", {class: "more"},
      view ? button(`Show it in ${view.title}${name ? ", with " + name : ""}`, go, {class: "go"}) : null,
      one.check ? el("span", {class: "quiet"}, "check it: ", el("code", {}, one.check)) : null) : null);
}

function card(value, what) { return el("div", {class: "card"}, el("b", {}, value), el("span", {}, what)); }

function cards() {
  const last = state.at - 1;
  if (last < 0) return [card(number(meta.objects), "objects in the trace"), card("0", "mark ends")];
  const live = col.timeSlotBytes[last], backed = col.timeBacked[last] * meta.page;
  return [
    card(bytes(live), `live in slots at mark end ${state.at}`), card(number(col.timeKept[last]), "slots filled by live objects"), card(bytes(backed), "backed with memory"),
    card(percent(live, backed), "of it live"), card(number(meta.objects), "objects in the trace"), card(number(meta.missed), "of them found no room"),
  ];
}

views.push({
  id: "summary", title: "Summary",
  make(section) {
    section.append(el("p", {class: "quiet"}, aboutRecording()), el("div", {class: "cards"}), el("ul", {class: "sentences"}));
  },
  draw(section) {
    section.querySelector(".cards").replaceChildren(...cards());
    section.querySelector(".sentences").replaceChildren(...meta.sentences.map(sentence));
  },
});

function aboutRecording() {
  const {program, command} = meta.recorded, go = meta.recorded.go || meta.recorded["go version"];
  const of = [program ? `of ${program}` : "", go ? `(${go})` : "", command ? `run as ${command}` : ""].filter(Boolean).join(" ");
  return `A recording ${of} with ${counted(meta.objects, "object")}, ${counted(meta.markEnds, "mark end")} and ${counted(meta.procs, "processor")}, on a region of ${number(meta.chunks * 4)} MiB; `
    + "choose a function in any view, or a mark end above, and all views show it.";
}
