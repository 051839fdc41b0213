// Beside the map: one span with its slots, who is in it, and what the journal says of its pages.

const SLOT_ROWS = 200, JOURNAL_ROWS = 60;

// Who has objects in a span: by function, the most objects first.
function holderRows(heap, span) {
  const rows = new Map();
  for (const one of heap.objectsIn(span)) {
    const fn = col.frameFunction[stackFirst[col.objectStack[one]]];
    if (!rows.has(fn)) rows.set(fn, {fn, objects: 0, bytes: 0});
    rows.get(fn).objects++;
    rows.get(fn).bytes += col.objectSize[one];
  }
  return [...rows.values()].sort((a, b) => b.objects - a.objects || b.bytes - a.bytes || a.fn - b.fn);
}

// The cycle in which an object was allocated: how many mark ends came before it.
function cycleOf(one) {
  const object = col.objectNumber[one];
  let low = 0, high = col.born.length;
  while (low < high) {
    const middle = (low + high) >> 1;
    if (col.born[middle] <= object) low = middle + 1;
    else high = middle;
  }
  return low;
}

function objectAddress(one) { return "0x" + (BigInt("0x" + meta.base) + BigInt(col.objectPlace[one]) * BigInt(meta.aligned) + BigInt(col.objectOffset[one])).toString(16); }

function toldObject(one) {
  return `object ${number(col.objectNumber[one])} at ${objectAddress(one)}: ${number(col.objectSize[one])} bytes\nallocated in cycle ${cycleOf(one)}, lives up to mark end ${col.objectLast[one]}${col.objectLast[one] === meta.markEnds ? ", the last" : ""}\n${frameText(stackFirst[col.objectStack[one]])}`;
}

function drawSpan(place, heap) {
  const page = state.page, span = page >= 0 && page < heap.owner.length ? heap.owner[page] : -1;
  if (page < 0 || page >= heap.kinds.length) {
    place.replaceChildren(el("p", {class: "quiet"}, "Choose a page of the map to see its span, its slots, who is in it and what the journal says of the place."));
    return;
  }
  if (span < 0) {
    place.replaceChildren(el("h3", {}, `Page ${number(page)}`), el("p", {}, `${(KIND_NAMES[heap.kinds[page]] || KIND_NAMES[0])[1]}, at ${address(page)}.`), journalPart(page, 1));
    return;
  }
  const spanClass = col.spanClass[heap.spans[span]], one = heap.spans[span];
  place.replaceChildren(
    el("h3", {}, `Span at page ${number(heap.first[span])}, ${counted(heap.pages[span], "page")}`),
    el("p", {}, `${address(heap.first[span])}, ${classText(spanClass)} (span class ${spanClass}), made in cycle ${col.spanMade[one]}, kept by the mark ends ${col.spanFirst[one]} to ${col.spanLast[one]}. `
      + `${number(heap.used[span])} of ${counted(heap.slots[span], "slot")} live, ${number(heap.asked[span])} of ${number(heap.pages[span] * meta.page)} bytes.`),
    el("figure", {}, el("figcaption", {}, "Its slots: a filled one has the colour of its function"), slotCanvas(heap, span)), holdersPart(heap, span), objectsPart(heap, span), journalPart(heap.first[span], heap.pages[span]));
  paintSlots(place.querySelector("canvas"), heap, span);
}

function slotCanvas(heap, span) {
  const find = (event, canvas) => canvas.slotAt ? canvas.slotAt(event) : null;
  return el("canvas", {role: "img", id: "slots", "aria-label": `${heap.used[span]} of ${heap.slots[span]} slots are live; the table below has the objects`,
    onmousemove: event => { const one = find(event, event.target); tip(one === null ? "" : one === undefined ? "a free slot" : toldObject(one), event); }, onmouseleave: () => tip(""),
    onclick: event => { const one = find(event, event.target); if (one !== null && one !== undefined) choose("function", meta.functions[col.frameFunction[stackFirst[col.objectStack[one]]]]); }});
}

function paintSlots(canvas, heap, span) {
  const width = widthOf(canvas), count = heap.slots[span], size = Math.max(5, Math.min(34, Math.floor(Math.sqrt(width * 170 / count)))), columns = Math.max(1, Math.floor(width / size));
  const draw = canvasOf(canvas, width, Math.ceil(count / columns) * size + 1), filled = new Map(), chosen = chosenStacks();
  for (const one of heap.objectsIn(span)) filled.set(heap.slotOf(span, one), one);
  for (let slot = 0; slot < count; slot++) {
    const one = filled.get(slot), x = slot % columns * size, y = Math.floor(slot / columns) * size, stack = one === undefined ? -1 : col.objectStack[one];
    draw.fillStyle = one === undefined ? colour("soft") : chosen && chosen[stack] ? colour("chosen") : colourOf(meta.functions[col.frameFunction[stackFirst[stack]]]);
    draw.fillRect(x, y, size - 1, size - 1);
    draw.strokeStyle = colour("line");
    draw.strokeRect(x + 0.5, y + 0.5, size - 2, size - 2);
  }
  canvas.slotAt = event => {
    const slot = Math.floor(event.offsetY / size) * columns + Math.floor(event.offsetX / size);
    return event.offsetX < columns * size && slot < count ? filled.get(slot) : null;
  };
}

function smallTable(caption, titles, rows) {
  return el("div", {class: "scroll short"}, el("table", {}, el("caption", {}, caption), el("thead", {}, el("tr", {}, titles.map((one, at) => el("th", {scope: "col", class: at === titles.length - 1 ? "name" : null}, one)))), el("tbody", {}, rows)));
}

function holdersPart(heap, span) {
  const rows = holderRows(heap, span).map(one => choosingRow("function", meta.functions[one.fn], [el("td", {}, number(one.objects)), el("td", {}, number(one.bytes)), el("td", {class: "name", title: meta.functions[one.fn]}, meta.functions[one.fn])]));
  return smallTable("Who is in it", ["objects", "bytes", "function"], rows);
}

function objectsPart(heap, span) {
  const objects = [...heap.objectsIn(span)].sort((a, b) => col.objectPlace[a] - col.objectPlace[b] || col.objectOffset[a] - col.objectOffset[b]);
  const rows = objects.slice(0, SLOT_ROWS).map(one => choosingRow("line", frameText(stackFirst[col.objectStack[one]]), [el("td", {}, number(heap.slotOf(span, one))), el("td", {class: "mono"}, objectAddress(one)),
    el("td", {}, number(col.objectSize[one])), el("td", {}, cycleOf(one)), el("td", {class: "name", title: frameText(stackFirst[col.objectStack[one]])}, frameText(stackFirst[col.objectStack[one]]))]));
  const more = objects.length > SLOT_ROWS ? `, the first ${SLOT_ROWS} of ${number(objects.length)}` : "";
  return smallTable(`Its objects, by slot${more}; the cycle is that in which each was allocated`, ["slot", "address", "bytes", "cycle", "made at"], rows);
}

// The lines of the journal that speak of these pages, up to the mark end.
function journalPart(page, pages) {
  const found = [];
  for (let line = 0; line < col.lineWord.length && col.lineCycle[line] < state.at; line++) {
    const word = meta.words[col.lineWord[line]], count = word === "pull" || word === "drop" ? 64 : col.linePages[line];
    if (word !== "miss" && col.linePage[line] < page + pages && page < col.linePage[line] + count) found.push(line);
  }
  const shown = found.slice(-JOURNAL_ROWS);
  return el("div", {}, el("h3", {}, `The journal at this place${found.length > shown.length ? `, the last ${shown.length} of ${number(found.length)} lines` : ""}`), el("pre", {}, shown.map(journalLine).join("\n") || "Nothing."));
}

function journalLine(line) {
  const word = meta.words[col.lineWord[line]], proc = ["pull", "cut", "drop", "keep"].includes(word) ? [col.lineProc[line]] : [], spanClass = ["take", "cut", "miss"].includes(word) ? [col.lineClass[line]] : [];
  return ["j", line, col.lineCycle[line], word, ...proc, col.linePage[line], col.linePages[line], ...spanClass].join(" ");
}
