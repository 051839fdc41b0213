// The eighth view: what a judge said of the report.

views.push({
  id: "judged", title: "Judged",
  make(section) {
    const {by, verdict, lines, sound} = meta.judged;
    if (!by) {
      section.append(el("p", {}, "The report was not judged."));
      return;
    }
    section.append(
      el("ul", {class: "sentences"}, el("li", {class: sound ? "good" : "bad"}, el("span", {class: "label"}, verdict), sound ? "The report meets all rules: these are addresses, spans and counts that the allocator may have." : "The report was refused.")),
      el("p", {class: "quiet"}, by), lines.length ? el("pre", {}, lines.join("\n")) : null);
  },
  draw() {},
});
