// The page's data: what is told of the recording, and its columns.

const meta = JSON.parse(document.getElementById("meta").textContent);
const col = {};

const TYPES = {B: Uint8Array, b: Int8Array, H: Uint16Array, h: Int16Array, I: Uint32Array, i: Int32Array, d: Float64Array};

async function inflated(text) {
  const packed = atob(text), bytes = new Uint8Array(packed.length);
  for (let at = 0; at < packed.length; at++) bytes[at] = packed.charCodeAt(at);
  const stream = new Blob([bytes]).stream().pipeThrough(new DecompressionStream("deflate"));
  return new Response(stream).arrayBuffer();
}

// A column of differences as the numbers themselves.
function summed(column) {
  const whole = new Float64Array(column.length);
  let sum = 0, high = 0, low = 0;
  for (let at = 0; at < column.length; at++) {
    sum += column[at];
    whole[at] = sum;
    if (sum > high) high = sum;
    if (sum < low) low = sum;
  }
  return low >= 0 && high < 2 ** 32 ? Uint32Array.from(whole) : whole;
}

async function readColumn(name, [type, length, rising, text]) {
  const buffer = await inflated(text);
  if (type === "t") meta[name] = JSON.parse(new TextDecoder().decode(buffer));
  else {
    const column = new TYPES[type](buffer, 0, length);
    col[name] = rising ? summed(column) : column;
  }
}

async function readData() {
  const place = document.getElementById("data"), table = JSON.parse(place.textContent);
  await Promise.all(Object.entries(table).map(([name, column]) => readColumn(name, column)));
  place.textContent = "";
  setStacks();
}

// Of each stack its first frame, its function, and all functions that it is in, each once.
const stackFirst = [], stackFunctions = [];

function setStacks() {
  const count = col.stackNumber.length;
  for (let stack = 0; stack < count; stack++) {
    const begin = col.stackBegin[stack], end = col.stackBegin[stack + 1];
    stackFirst.push(col.stackFrame[begin]);
    const functions = [];
    for (let at = begin; at < end; at++) {
      const one = col.frameFunction[col.stackFrame[at]];
      if (!functions.includes(one)) functions.push(one);
    }
    stackFunctions.push(functions);
  }
}

function frameText(frame) {
  const place = meta.places[frame];
  return meta.functions[col.frameFunction[frame]] + (place ? " " + place : "");
}

// The package of a function: what stands before the first dot behind its last slash.
function packageOf(name) {
  const slash = name.lastIndexOf("/"), dot = name.indexOf(".", slash + 1);
  return dot > 0 ? name.slice(0, dot) : name;
}

function slotText(slot) { return slot > 32768 ? "large, " + number(slot) : number(slot); }
