// How texts, elements and canvases are made.

const UNITS = [[2 ** 30, "GB"], [2 ** 20, "MB"], [2 ** 10, "kB"]];

// A number with so many digits behind the point, a half to the even one, as Python writes it.
function fixed(value, digits) {
  if (value < 0) return "-" + fixed(-value, digits);
  const times = value * 10 ** digits, low = Math.floor(times), isHalf = times - low === 0.5 && (2 * low + 1) % 5 ** digits === 0;
  return (isHalf && low % 2 === 0 ? low / 10 ** digits : value).toFixed(digits);
}

// So many bytes, as `leaks` and `go tool pprof` write them.
function bytes(size) {
  for (const [unit, name] of UNITS) {
    if (Math.abs(size) >= unit) return fixed(size / unit, 2) + name;
  }
  return fixed(size, 0) + "B";
}

const GROUPED = new Intl.NumberFormat("en-US", {maximumFractionDigits: 1});
function number(value) { return GROUPED.format(value); }
function percent(part, whole) { return whole ? fixed(100 * part / whole, 1) + "%" : "0.0%"; }
function signed(size, text = bytes) { return size > 0 ? "+" + text(size) : text(size); }
function counted(count, what) { return `${number(count)} ${what}${count === 1 ? "" : "s"}`; }

// An element with its attributes (those that begin with `on` are what it does) and what is in it.
function el(tag, attributes = {}, ...inside) {
  const one = document.createElement(tag);
  for (const [name, value] of Object.entries(attributes)) {
    if (name.startsWith("on")) one.addEventListener(name.slice(2), value);
    else if (value === true) one.setAttribute(name, "");
    else if (value !== false && value !== null && value !== undefined) one.setAttribute(name, value);
  }
  one.append(...inside.flat().filter(part => part !== null && part !== undefined && part !== false));
  return one;
}

function button(text, does, attributes = {}) { return el("button", {type: "button", onclick: does, ...attributes}, text); }

// A list to choose from, which changes one name of the state.
function select(label, name, options, also = {}) {
  const list = el("select", {id: `${name}-list`, onchange: () => set({[name]: list.value, ...also})}, options.map(one => el("option", {value: one}, one)));
  list.value = state[name];
  return [el("label", {for: `${name}-list`}, label), list];
}

const colours = new Map();
matchMedia("(prefers-color-scheme: dark)").addEventListener("change", () => { colours.clear(); show(); });

// A colour of the style, as it is now.
function colour(name) {
  if (!colours.has(name)) colours.set(name, getComputedStyle(document.documentElement).getPropertyValue("--" + name).trim());
  return colours.get(name);
}

function isDark() { return matchMedia("(prefers-color-scheme: dark)").matches && !isDark.printing; }

// A number from 0 up for a text, the same at each time.
function hashed(text) {
  let sum = 7;
  for (let at = 0; at < text.length; at++) sum = (sum * 31 + text.charCodeAt(at)) >>> 0;
  return sum;
}

// The colour of a name: those of one package are of one hue.
function colourOf(name) {
  const of = packageOf(name), light = isDark() ? 27 + hashed(name) % 9 : 76 + hashed(name) % 10;
  if (of === "runtime" || name.startsWith("(")) return `hsl(215 8% ${light}%)`;
  return `hsl(${hashed(of) * 47 % 360} ${isDark() ? 42 : 62}% ${light}%)`;
}

// Makes a canvas as large as its place, and answers what to draw with.
function canvasOf(canvas, width, height) {
  const dense = Math.min(devicePixelRatio || 1, 2);
  canvas.width = Math.max(1, Math.round(width * dense));
  canvas.height = Math.max(1, Math.round(height * dense));
  canvas.style.height = height + "px";
  const draw = canvas.getContext("2d");
  draw.setTransform(dense, 0, 0, dense, 0, 0);
  draw.clearRect(0, 0, width, height);
  draw.font = "12px system-ui, sans-serif";
  draw.textBaseline = "middle";
  return draw;
}

function widthOf(canvas) { return canvas.parentElement.clientWidth - 2 * Number.parseFloat(getComputedStyle(canvas.parentElement).paddingLeft) || 600; }

// The text, cut so that it fits.
function fitted(draw, text, width) {
  if (width < 14) return "";
  if (draw.measureText(text).width <= width) return text;
  let low = 0, high = text.length;
  while (low < high) {
    const middle = (low + high + 1) >> 1;
    if (draw.measureText(text.slice(0, middle) + "..").width <= width) low = middle;
    else high = middle - 1;
  }
  return low ? text.slice(0, low) + ".." : "";
}

// What stands beside the pointer.
function tip(text, event) {
  const box = document.getElementById("tip");
  box.hidden = !text;
  if (!text) return;
  box.textContent = text;
  const {innerWidth, innerHeight} = window, width = box.offsetWidth, height = box.offsetHeight;
  const x = event.clientX + 14, y = event.clientY + 16;
  box.style.left = Math.max(4, x + width > innerWidth ? event.clientX - width - 10 : x) + "px";
  box.style.top = Math.max(4, y + height > innerHeight ? event.clientY - height - 10 : y) + "px";
}

// Says something to a reader who does not see the canvas, and beside the element.
function tell(text, beside) {
  const {left, top, height} = beside.getBoundingClientRect();
  tip(text, {clientX: left + 20, clientY: Math.min(top + height, innerHeight - 60)});
}

async function copy(text, from) {
  try {
    await navigator.clipboard.writeText(text);
  } catch {
    const area = el("textarea", {class: "unseen"});
    area.value = text;
    document.body.append(area);
    area.select();
    document.execCommand("copy");
    area.remove();
  }
  copy.last = text;
  const before = from.textContent;
  from.textContent = "copied";
  setTimeout(() => { from.textContent = before; }, 1200);
}

function csvField(value) {
  const text = String(value);
  return /[",\n]/.test(text) ? `"${text.replaceAll('"', '""')}"` : text;
}

function csv(rows) { return rows.map(row => row.map(csvField).join(",")).join("\n") + "\n"; }

// Rows as a text in columns; the last one is of names, and stands on the left.
function plainText(rows) {
  const widths = rows[0].map((_, at) => Math.max(...rows.map(row => String(row[at]).length)));
  return rows.map(row => row.map((value, at) => at === row.length - 1 ? value : String(value).padStart(widths[at])).join("  ")).join("\n") + "\n";
}

// Round numbers for an axis, up to `most`.
function steps(most, about) {
  if (!(most > 0)) return [0];
  const raw = most / about, ten = 10 ** Math.floor(Math.log10(raw));
  const step = [1, 2, 5, 10].map(one => one * ten).find(one => one >= raw);
  const found = [];
  for (let at = 0; at <= most * 1.0001; at += step) found.push(at);
  return found;
}

// Of bytes the steps are of two's powers.
function byteSteps(most, about) {
  const unit = (UNITS.find(([size]) => most >= size) || [1])[0];
  return steps(most / unit, about).map(one => one * unit);
}
