// The ranges of an ACK as a strip: all packet numbers from the smallest to the largest, the acknowledged ones filled.

import { element } from "./rows.js";
import { count } from "./shown.js";

const SVG = "http://www.w3.org/2000/svg";
const WIDTH = 1000;

// The path of the filled parts; parts less than a unit apart are joined.
function pathOf(ranges, smallest, numbers) {
  const at = (number) => Number(((number - smallest) * BigInt(WIDTH * 1000)) / numbers) / 1000;
  let path = "";
  let left = WIDTH;
  let right = WIDTH;
  const fill = () => {
    const width = Math.max(right - left, 1);
    path += `M${Math.min(left, WIDTH - width)} 0h${width}v1h-${width}z`;
  };
  ranges.forEach(([from, to], index) => {
    const end = at(to + 1n);
    if (index > 0 && left - end > 1) {
      fill();
      right = end;
    }
    left = at(from);
  });
  fill();
  return path;
}

// What strips that were drawn say, and their paths, by their ranges: a strip is drawn again whenever its list scrolls.
const drawnStrips = new WeakMap();

function partsOf(ranges) {
  if (!drawnStrips.has(ranges)) {
    const [[, largest], [smallest]] = [ranges[0], ranges[ranges.length - 1]];
    const packets = ranges.reduce((sum, [from, to]) => sum + to - from + 1n, 0n);
    const what = `${packets} of ${largest - smallest + 1n} packets, in ${count(ranges.length, "range")}`;
    const path = pathOf(ranges, smallest, largest - smallest + 1n);
    drawnStrips.set(ranges, { smallest: `${smallest}`, largest: `${largest}`, what, path });
  }
  return drawnStrips.get(ranges);
}

// The smallest number, the strip, the largest number. |ranges| begin with the greatest.
export function stripOf(ranges) {
  const { smallest, largest, what, path: drawn } = partsOf(ranges);
  const svg = document.createElementNS(SVG, "svg");
  svg.setAttribute("viewBox", `0 0 ${WIDTH} 1`);
  svg.setAttribute("preserveAspectRatio", "none");
  svg.setAttribute("role", "img");
  svg.setAttribute("aria-label", what);
  const title = document.createElementNS(SVG, "title");
  title.textContent = what;
  const path = document.createElementNS(SVG, "path");
  path.setAttribute("d", drawn);
  svg.append(title, path);
  return [element("span", "bound", smallest), svg, element("span", "bound", largest)];
}
