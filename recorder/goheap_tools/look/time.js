// The second view: how the heap went on, from mark end to mark end.

const LEFT = 64, BELOW = 20, ABOVE = 8;

// A chart: its title, what is drawn from the bottom up (areas one over the other, or lines), and how its numbers are written.
function charts() {
  const pages = name => Float64Array.from(col["time" + name]), page = meta.page;
  const made = meta.markEnds ? madeBytes() : [];
  const course = chosenCourse();
  return [
    {title: "Live bytes, in slots", text: bytes, lines: [["live", pages("SlotBytes"), "live"], ...(course ? [[state.choice.name, course, "chosen"]] : [])], area: true},
    {title: "Backed memory", text: bytes, stacked: [["in spans that are kept", pages("SpanPages").map(one => one * page), "live"], ["free pages", pages("FreePages").map(one => one * page), "free"]]},
    {title: "Free slots in kept spans", text: bytes, lines: [["free slots", pages("FreeSlots"), "slots"]], area: true},
    {title: "Spans that are kept", text: number, lines: [["spans", pages("Spans"), "live"]], area: true},
    {title: "Allocated since the mark end before", text: bytes, bars: [["allocated, in slots", made, "live"]]},
    {title: "Objects that the mark end kept and freed", text: number, bars: [["kept", pages("Kept"), "live"], ["freed", pages("Freed"), "free"]]},
  ];
}

function madeBytes() {
  const made = new Float64Array(meta.markEnds);
  for (let mark = 0; mark < meta.markEnds; mark++) {
    for (let one = col.changeBegin[mark]; one < col.changeBegin[mark + 1]; one++) made[mark] += col.changeAllocs[one] * col.bucketSlot[col.changeBucket[one]];
  }
  return made;
}

function seriesOf(chart) { return chart.stacked || chart.bars || chart.lines; }

function mostOf(chart) {
  let most = 0;
  for (let at = 0; at < meta.markEnds; at++) {
    const values = seriesOf(chart).map(([, column]) => column[at]);
    most = Math.max(most, chart.lines ? Math.max(...values) : values.reduce((sum, one) => sum + one, 0));
  }
  return most || 1;
}

function drawChart(canvas, chart) {
  const width = widthOf(canvas), height = 170, draw = canvasOf(canvas, width, height), most = mostOf(chart), count = meta.markEnds;
  const across = width - LEFT - 10, down = height - ABOVE - BELOW, bar = chart.bars || count === 1;
  const x = at => LEFT + (bar ? (at + 0.5) / count : at / (count - 1)) * across, y = value => ABOVE + down - value / most * down;
  drawAxes(draw, chart, {width, height, most, x, y, count});
  if (bar) drawBars(draw, chart, {across, count, x, y});
  else drawAreas(draw, chart, {count, x, y});
  drawChosenMark(draw, x(state.at - 1), height);
  canvas.at = event => Math.min(count, Math.max(1, Math.round((event.offsetX - LEFT) / across * (bar ? count : count - 1) + (bar ? 0.5 : 1))));
}

function drawAxes(draw, chart, {width, height, most, x, y, count}) {
  draw.strokeStyle = colour("line");
  draw.fillStyle = colour("quiet");
  draw.textAlign = "right";
  for (const step of chart.text === bytes ? byteSteps(most, 3) : steps(most, 3)) {
    draw.fillText(chart.text(step).replace(/\.00(?=\D)/, ""), LEFT - 6, y(step));
    draw.beginPath();
    draw.moveTo(LEFT, y(step) + 0.5);
    draw.lineTo(width - 10, y(step) + 0.5);
    draw.stroke();
  }
  draw.textAlign = "center";
  for (const step of steps(count, Math.min(8, width / 90))) {
    if (step >= 1 && step === Math.round(step)) draw.fillText(String(step), x(step - 1), height - 8);
  }
}

function drawBars(draw, chart, {across, count, x, y}) {
  const wide = Math.max(1, across / count * 0.72), below = new Float64Array(count);
  for (const [, column, name] of seriesOf(chart)) {
    draw.fillStyle = colour(name);
    for (let at = 0; at < count; at++) {
      const top = y(below[at] + column[at]);
      draw.fillRect(x(at) - wide / 2, top, wide, y(below[at]) - top);
      if (!chart.lines) below[at] += column[at];
    }
  }
}

function drawAreas(draw, chart, {count, x, y}) {
  const below = new Float64Array(count);
  for (const [, column, name] of seriesOf(chart)) {
    draw.beginPath();
    for (let at = 0; at < count; at++) draw.lineTo(x(at), y(below[at] + column[at]));
    draw.strokeStyle = colour(name);
    draw.lineWidth = 2;
    draw.stroke();
    for (let at = count - 1; at >= 0; at--) draw.lineTo(x(at), y(below[at]));
    draw.fillStyle = colour(name);
    draw.globalAlpha = chart.stacked ? 0.75 : 0.3;
    draw.fill();
    draw.globalAlpha = 1;
    draw.lineWidth = 1;
    if (chart.stacked) column.forEach((one, at) => { below[at] += one; });
  }
}

function drawChosenMark(draw, x, height) {
  draw.strokeStyle = colour("ink");
  draw.setLineDash([3, 3]);
  draw.beginPath();
  draw.moveTo(Math.round(x) + 0.5, ABOVE);
  draw.lineTo(Math.round(x) + 0.5, height - BELOW);
  draw.stroke();
  draw.setLineDash([]);
}

function valuesAt(chart, at) {
  return seriesOf(chart).map(([name, column]) => `${name} ${chart.text(column[at - 1])}`).join("\n");
}

function chartFigure(chart) {
  const canvas = el("canvas", {tabindex: 0, role: "slider", "aria-label": `${chart.title}, by mark end`, "aria-valuemin": 1, "aria-valuemax": meta.markEnds,
    onclick: event => set({at: canvas.at(event)}), onkeydown: moveMark, onmouseleave: () => tip(""),
    onmousemove: event => { const at = canvas.at(event); tip(`mark end ${at}\n${valuesAt(chart, at)}`, event); }});
  return el("figure", {}, el("figcaption"), canvas);
}

function moveMark(event) {
  const by = {ArrowLeft: -1, ArrowRight: 1, Home: -meta.markEnds, End: meta.markEnds}[event.key];
  if (!by) return;
  event.preventDefault();
  set({at: Math.min(meta.markEnds, Math.max(1, state.at + by))});
}

function fillCaption(figure, chart) {
  figure.querySelector("figcaption").replaceChildren(el("b", {}, chart.title), ...seriesOf(chart).map(([name, column, of]) =>
    el("span", {class: "key"}, el("i", {style: `background:var(--${of})`}), `${name}: ${chart.text(column[state.at - 1])}`)));
}

views.push({
  id: "time", title: "Time",
  make(section) {
    section.append(el("p", {class: "quiet"}, "Each mark end as its sweep is done; the numbers are those of the one that is chosen. A click on a chart, or the arrow keys, choose the mark end that all views show."), el("div", {class: "charts"}));
    if (meta.markEnds) section.lastChild.append(...charts().map(chartFigure));
    else section.append(el("p", {}, "There is no mark end."));
  },
  draw(section) {
    if (!meta.markEnds) return;
    const all = charts();
    section.querySelectorAll("figure").forEach((figure, at) => {
      const canvas = figure.querySelector("canvas");
      fillCaption(figure, all[at]);
      canvas.setAttribute("aria-valuenow", state.at);
      canvas.setAttribute("aria-valuetext", `mark end ${state.at}, ${valuesAt(all[at], state.at)}`);
      drawChart(canvas, all[at]);
    });
  },
});
