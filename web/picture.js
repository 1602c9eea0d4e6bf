// A picture of the bytes, as an SVG file that needs nothing else: the grid in the colours that it has on the page, with
// a legend.

import { hexOfByte } from "./bytes.js";

const PIXELS = { row: 26, byte: 26, offset: 64, margin: 16, text: 13, legend: 22, gap: 18 };
const MOST_BYTES = 4096;
const LEGEND_WIDTH = 232;

// A colour of the style sheet as three numbers, which every viewer understands.
export function plainColor(context, color) {
  context.fillStyle = color;
  context.fillRect(0, 0, 1, 1);
  const [red, green, blue] = context.getImageData(0, 0, 1, 1).data;
  return `#${hexOfByte(red)}${hexOfByte(green)}${hexOfByte(blue)}`;
}

// The colours of elements of these classes in a grid.
class Colors {
  constructor(box) {
    this.box = box;
    this.context = document.createElement("canvas").getContext("2d", { willReadFrequently: true });
    this.known = new Map();
  }

  of(classes) {
    if (!this.known.has(classes)) {
      const probe = document.createElement("span");
      probe.className = classes;
      this.box.append(probe);
      const { backgroundColor, color } = getComputedStyle(probe);
      const panel = getComputedStyle(this.box.closest(".panel")).backgroundColor;
      this.known.set(classes, {
        panel: plainColor(this.context, panel), ground: plainColor(this.context, backgroundColor),
        ink: plainColor(this.context, color),
      });
      probe.remove();
    }
    return this.known.get(classes);
  }
}

// XML has no form for other characters, which the name of a file may have.
const NOT_IN_XML = /[^\t\n\r\u{20}-\u{d7ff}\u{e000}-\u{fffd}\u{10000}-\u{10ffff}]/gu;

export const escaped = (text) => (
  text.replace(NOT_IN_XML, "\ufffd").replace(/[&<>"]/g, (sign) => `&#${sign.charCodeAt(0)};`));

const attributes = (values) => Object.entries(values).map(([name, value]) => ` ${name}="${value}"`).join("");

export function tag(name, values, inner) {
  return inner === undefined ? `<${name}${attributes(values)}/>` : `<${name}${attributes(values)}>${inner}</${name}>`;
}

// The classes of a byte in the grid, as far as they give it a colour.
function classesAt(reading, place) {
  const index = reading.indexAt(place);
  if (index < 0) {
    return "byte";
  }
  const item = reading.item(index);
  const field = item.fields[reading.fieldAt(item, place)];
  return `byte tone ${item.tone}${field?.opaque ? " opaque" : ""}${field?.fault ? " fault" : ""}`;
}

// The bytes of a row: a background for each run of one colour, the digits, lines under what is wrong or differs.
function rowOf(reading, colors, begin, end, top, differs) {
  const parts = [];
  const x = (place) => PIXELS.margin + PIXELS.offset + (place - begin) * PIXELS.byte;
  const middle = top + PIXELS.row / 2;
  const text = { y: middle, "text-anchor": "middle", "dominant-baseline": "central" };
  const { ink } = colors.of("offset");
  const offset = begin.toString(16).padStart(4, "0");
  parts.push(tag("text", { ...text, x: PIXELS.margin + PIXELS.offset / 2 - 6, fill: ink }, offset));
  for (let place = begin; place < end; place += 1) {
    const { ground, ink: digits } = colors.of(classesAt(reading, place));
    const index = reading.indexAt(place);
    const isLast = index < 0 || place === reading.end(index) - 1;
    parts.push(tag("rect", {
      x: x(place), y: top + 2, width: PIXELS.byte - (isLast ? 2 : 0), height: PIXELS.row - 4, fill: ground,
    }));
    const center = x(place) + PIXELS.byte / 2 - 1;
    parts.push(tag("text", { ...text, x: center, fill: digits }, hexOfByte(reading.bytes[place])));
    const isFault = classesAt(reading, place).endsWith(" fault");
    if (isFault || (differs && differs[place])) {
      const dashes = isFault ? { "stroke-dasharray": "3 2" } : {};
      const [y, left] = [top + PIXELS.row - 4, x(place) + 4];
      parts.push(tag("line", {
        x1: left, x2: left + PIXELS.byte - 10, y1: y, y2: y, stroke: digits, "stroke-width": 2, ...dashes,
      }));
    }
  }
  return parts.join("");
}

// The kinds of items among the first bytes: for each its name and its tone, with how many there are.
function kindsOf(reading, length) {
  const kinds = new Map();
  for (let index = 0; index < reading.count && reading.begin(index) < length; index += 1) {
    const { name, tone } = reading.item(index);
    const kind = kinds.get(name) ?? { name, tone, count: 0 };
    kind.count += 1;
    kinds.set(name, kind);
  }
  return [...kinds.values()];
}

function legendOf(kinds, colors, columns, top) {
  const across = Math.max(1, Math.floor((PIXELS.offset + columns * PIXELS.byte) / LEGEND_WIDTH));
  return kinds.map(({ name, tone, count }, at) => {
    const x = PIXELS.margin + (at % across) * LEGEND_WIDTH;
    const y = top + Math.floor(at / across) * PIXELS.legend;
    const { ground } = colors.of(`byte tone ${tone} lit-item`);
    const text = { x: x + 18, y: y + 7, "dominant-baseline": "central", fill: colors.of("byte").ink };
    const words = escaped(count > 1 ? `${name} × ${count}` : name);
    return tag("rect", { x, y, width: 12, height: 12, rx: 3, fill: ground }) + tag("text", text, words);
  }).join("");
}

// The picture of a reading as text. |title| says what it is; |differs| marks bytes.
export function pictureOf(reading, box, columns, title, differs) {
  const colors = new Colors(box);
  const length = Math.min(reading.bytes.length, MOST_BYTES);
  const { margin, row, byte, gap, legend, offset } = PIXELS;
  const words = length < reading.bytes.length ? `${title} The first ${length} bytes.` : title;
  const kinds = kindsOf(reading, length);
  const width = 2 * margin + offset + columns * byte;
  const across = Math.max(1, Math.floor((offset + columns * byte) / LEGEND_WIDTH));
  const top = margin + gap + 8;
  const rows = Math.ceil(length / columns);
  const height = top + rows * row + gap + Math.ceil(kinds.length / across) * legend + margin;
  const parts = [tag("title", {}, escaped(words)), tag("rect", { width, height, fill: colors.of("byte").panel })];
  const heading = { x: margin, y: margin + 8, "dominant-baseline": "central", fill: colors.of("byte").ink };
  parts.push(tag("text", { ...heading, "font-weight": 600 }, escaped(words)));
  for (let at = 0; at < rows; at += 1) {
    const end = Math.min((at + 1) * columns, length);
    parts.push(rowOf(reading, colors, at * columns, end, top + at * row, differs));
  }
  parts.push(legendOf(kinds, colors, columns, top + rows * row + gap));
  return tag("svg", {
    xmlns: "http://www.w3.org/2000/svg", viewBox: `0 0 ${width} ${height}`, width, height, role: "img",
    "font-family": "ui-monospace, Menlo, Consolas, 'DejaVu Sans Mono', monospace", "font-size": PIXELS.text,
  }, parts.join("\n"));
}

// Gives bytes to the browser to save as a file.
export function saveBlob(blob, name) {
  const link = document.createElement("a");
  link.href = URL.createObjectURL(blob);
  link.download = name;
  link.click();
  setTimeout(() => URL.revokeObjectURL(link.href), 10000);
}

// The same of a text.
export function saveText(text, type, name) {
  saveBlob(new Blob([text], { type }), name);
}
