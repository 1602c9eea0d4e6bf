// Packet numbers over time: where a packet is in the picture, its axes, and the picture as an SVG file.

import { escaped, tag } from "./picture.js";

// Each point is six numbers: time, packet number, side, state, space, and the packet's index.
export const POINT = 6;
export const LOST = [2, 3];
export const MARGIN = { left: 64, right: 12, top: 10, bottom: 34 };
const TICKS = 6;
// How wide a packet is drawn, and one that counted as lost.
export const DOT = { usual: 3, lost: 5 };
// Above the picture in a file are its title and what its colours mean.
const HEADING = 52;
const FONT = "system-ui, sans-serif";

// Round numbers between two others, for an axis.
export function ticksBetween(from, to, most = TICKS) {
  const rough = (to - from) / most;
  const power = 10 ** Math.floor(Math.log10(rough));
  const step = power * [1, 2, 5, 10].find((factor) => factor * power >= rough);
  const first = Math.ceil(from / step);
  return Array.from({ length: Math.floor(to / step) - first + 1 }, (_, at) => (first + at) * step);
}

// A number of an axis, with as many digits as the next one needs to differ.
function tickText(value, step) {
  return value.toFixed(Math.max(0, Math.min(9, Math.ceil(-Math.log10(step)))));
}

// What the picture of a connection is called that has so many points, of so many packets that were opened.
export function pictureTitle(connection, shown, opened = shown) {
  const some = shown < opened ? `, ${shown} of ${opened} packets` : "";
  return `numbers over time, connection ${connection}${some}`;
}

// Whether a packet is in a view.
export const isInView = ([begin, end, least, most], time, number) => (
  time >= begin && time <= end && number >= least && number <= most);

// What is on the axes of a view: times and packet numbers, each with its text.
export function ticksOf([begin, end, least, most]) {
  const times = ticksBetween(begin, end);
  return {
    times: times.map((time) => [time, `${tickText(time, (end - begin) / TICKS)} s`]),
    numbers: ticksBetween(least, most).filter(Number.isInteger).map((number) => [number, `${number}`]),
  };
}

// Where a time and a packet number are in a picture of this size, of which |view| says what is at its ends.
export function placeIn([begin, end, least, most], { width, height }, time, number) {
  return [
    MARGIN.left + ((time - begin) / (end - begin)) * (width - MARGIN.left - MARGIN.right),
    height - MARGIN.bottom - ((number - least) / (most - least)) * (height - MARGIN.top - MARGIN.bottom),
  ];
}

// A line for each number of an axis, with its text.
function axes(view, size, colors) {
  const { times, numbers } = ticksOf(view);
  const [begin, , least] = view;
  const text = { fill: colors.ink, "font-size": 12 };
  const line = (x, y, dx, dy) => (
    tag("path", { d: `M${x.toFixed(1)} ${y.toFixed(1)}h${dx}v${dy}`, stroke: colors.line }));
  const below = { ...text, y: size.height - MARGIN.bottom + 16, "text-anchor": "middle" };
  return [
    ...times.map(([time, words]) => {
      const [x] = placeIn(view, size, time, least);
      return line(x, MARGIN.top, 0, size.height - MARGIN.top - MARGIN.bottom)
        + tag("text", { ...below, x: x.toFixed(1) }, words);
    }),
    ...numbers.map(([number, words]) => {
      const [, y] = placeIn(view, size, begin, number);
      return line(MARGIN.left, y, size.width - MARGIN.left - MARGIN.right, 0)
        + tag("text", { ...text, x: MARGIN.left - 8, y: (y + 4).toFixed(1), "text-anchor": "end" }, words);
    }),
  ];
}

const square = (x, y, size) => `M${(x - size / 2).toFixed(1)} ${(y - size / 2).toFixed(1)}h${size}v${size}h-${size}z`;

// The packets of a view as three paths: the client's, the server's, and those that counted as lost, which come last.
function dots(points, view, size, colors) {
  const paths = { client: new Set(), server: new Set(), lost: new Set() };
  for (let at = 0; at < points.length; at += POINT) {
    const [time, number, side, state] = points.subarray(at, at + 4);
    if (isInView(view, time, number)) {
      const kind = LOST.includes(state) ? "lost" : side === 0 ? "client" : "server";
      const [x, y] = placeIn(view, size, time, number);
      // Packets at the same place are drawn once.
      paths[kind].add(square(x, y, kind === "lost" ? DOT.lost : DOT.usual));
    }
  }
  return Object.entries(paths).filter(([, path]) => path.size > 0).map(([kind, path]) => tag("path", {
    class: kind, d: [...path].join(""), fill: kind === "server" ? "none" : colors[kind],
    ...(kind === "server" ? { stroke: colors.server } : {}),
  }));
}

// What the colours and shapes mean.
function legend(colors) {
  const kinds = [["client", "client"], ["server", "server"], ["lost", "counted as lost"]];
  return kinds.map(([kind, words], at) => {
    const x = MARGIN.left + 120 * at;
    const size = 3 + (kind === "lost" ? DOT.lost : DOT.usual);
    const paint = kind === "server" ? { fill: "none", stroke: colors[kind] } : { fill: colors[kind] };
    return tag("path", { d: square(x, 34, size), ...paint })
      + tag("text", { x: x + 10, y: 38, fill: colors.ink, "font-size": 12 }, words);
  });
}

// The picture of |points| as text. |view| is the least and greatest time, and packet number; |size| its width and
// height; |colors| are those of ink, line, ground, client, server and lost.
export function chartOf(points, view, size, colors, title) {
  const [width, height] = [Math.round(size.width), Math.round(size.height)];
  const parts = [
    tag("title", {}, escaped(title)), tag("rect", { width, height: height + HEADING, fill: colors.ground }),
    tag("text", { x: MARGIN.left, y: 20, fill: colors.ink, "font-size": 14, "font-weight": 600 }, escaped(title)),
    ...legend(colors),
    tag("g", { transform: `translate(0 ${HEADING})` }, [
      ...axes(view, { width, height }, colors), ...dots(points, view, { width, height }, colors),
    ].join("\n")),
  ];
  return tag("svg", {
    xmlns: "http://www.w3.org/2000/svg", viewBox: `0 0 ${width} ${height + HEADING}`, width, height: height + HEADING,
    role: "img", "font-family": FONT,
  }, parts.join("\n"));
}
