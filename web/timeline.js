// Packet numbers over time: a picture of a connection, with axes, in which a part can be enlarged and a packet chosen.

import { chartOf, DOT, isInView, LOST, MARGIN, placeIn, POINT, ticksOf } from "./chart.js";
import { plainColor } from "./picture.js";

// How far a click may be from a point, in pixels.
const NEAR = 18;
// How far a drag must go to enlarge a part.
const LEAST_DRAG = 8;
// The colours, by their names in the style sheet.
const COLORS = { ink: "--ink", line: "--line", client: "--accent", server: "--good", lost: "--bad" };
export const STATES = ["not acknowledged", "acknowledged", "lost", "acknowledged, had counted as lost"];

export class Timeline {
  // |on| has choose(index) and spot(text), which says what is near the pointer.
  constructor(canvas, on) {
    Object.assign(this, { canvas, on, points: new Float64Array(), drag: null, at: -1 });
    canvas.addEventListener("pointerdown", (event) => this.press(event));
    canvas.addEventListener("pointermove", (event) => this.move(event));
    canvas.addEventListener("pointerup", (event) => this.release(event));
    // The browser scrolls instead.
    canvas.addEventListener("pointercancel", () => this.letGo());
    canvas.addEventListener("keydown", (event) => this.key(event));
    new ResizeObserver(() => this.fit()).observe(canvas);
    window.matchMedia("(prefers-color-scheme: dark)").addEventListener("change", () => this.draw());
  }

  show(points) {
    this.points = points;
    this.at = -1;
    this.all();
  }

  get count() {
    return this.points.length / POINT;
  }

  // Shows all of it.
  all() {
    let [begin, end, least, most] = [Infinity, -Infinity, Infinity, -Infinity];
    for (let at = 0; at < this.points.length; at += POINT) {
      begin = Math.min(begin, this.points[at]);
      end = Math.max(end, this.points[at]);
      least = Math.min(least, this.points[at + 1]);
      most = Math.max(most, this.points[at + 1]);
    }
    const ends = [begin, Math.max(end, begin + 1e-6), least, Math.max(most, least + 1)];
    this.view = this.count === 0 ? [0, 1, 0, 1] : ends;
    this.draw();
  }

  // ---- drawing

  // Asked once for many points, since browsers may lay out the page for it.
  get size() {
    const { clientWidth: width, clientHeight: height } = this.canvas;
    return { width, height };
  }

  // Where a time and a number are in the picture.
  place(time, number) {
    return placeIn(this.view, this.size, time, number);
  }

  // How many of the screen's pixels are as wide as one of the page's.
  get scale() {
    return window.devicePixelRatio || 1;
  }

  // Draws for another size. What is shown at last was drawn when it came.
  fit() {
    const { canvas, size, scale } = this;
    if (canvas.width !== Math.floor(size.width * scale) || canvas.height !== Math.floor(size.height * scale)) {
      this.draw();
    }
  }

  draw() {
    const { canvas, scale, size: { width, height } } = this;
    if (width === 0 || !this.view) {
      return;
    }
    Object.assign(canvas, { width: width * scale, height: height * scale });
    const context = canvas.getContext("2d");
    context.scale(scale, scale);
    const style = getComputedStyle(canvas);
    this.colors = Object.fromEntries(Object.entries(COLORS).map(([name, property]) => (
      [name, this.resolved(style.getPropertyValue(property))])));
    context.font = `12px ${style.fontFamily}`;
    this.axes(context, width, height);
    context.save();
    context.beginPath();
    context.rect(MARGIN.left - 4, MARGIN.top - 4, width - MARGIN.left - MARGIN.right + 8,
      height - MARGIN.top - MARGIN.bottom + 8);
    context.clip();
    this.dots(context, false);
    this.dots(context, true);
    this.marks(context, height);
    context.restore();
  }

  // A colour of the style sheet as it is in the scheme of now.
  resolved(color) {
    this.canvas.style.color = color;
    const { color: found } = getComputedStyle(this.canvas);
    this.canvas.style.color = "";
    return found;
  }

  axes(context, width, height) {
    const [begin, , least] = this.view;
    const { times, numbers } = ticksOf(this.view);
    Object.assign(context, { fillStyle: this.colors.ink, strokeStyle: this.colors.line, lineWidth: 1 });
    context.textAlign = "center";
    for (const [time, text] of times) {
      const [x] = this.place(time, least);
      context.strokeRect(x, MARGIN.top, 0, height - MARGIN.top - MARGIN.bottom);
      context.fillText(text, x, height - MARGIN.bottom + 16);
    }
    context.textAlign = "right";
    for (const [number, text] of numbers) {
      const [, y] = this.place(begin, number);
      context.strokeRect(MARGIN.left, y, width - MARGIN.left - MARGIN.right, 0);
      context.fillText(text, MARGIN.left - 8, y + 4);
    }
  }

  // The packets, of which those that counted as lost come last. Sides differ in shape too: the server's are hollow.
  dots(context, areLost) {
    const { colors } = this;
    const size = areLost ? DOT.lost : DOT.usual;
    Object.assign(context, { fillStyle: areLost ? colors.lost : colors.client, strokeStyle: colors.server });
    for (const [x, y, isServer] of this.spots(areLost)) {
      if (isServer && !areLost) {
        context.strokeRect(x - size / 2, y - size / 2, size, size);
      } else {
        context.fillRect(x - size / 2, y - size / 2, size, size);
      }
    }
  }

  // Where packets are drawn, and whether the server sent them: at each half of a pixel one of each side.
  * spots(areLost) {
    const { points, view, size } = this;
    const across = 2 * (size.width + 1);
    const drawn = new Uint8Array(across * 2 * (size.height + 1));
    for (let at = 0; at < points.length; at += POINT) {
      const time = points[at];
      const number = points[at + 1];
      if (isInView(view, time, number) && LOST.includes(points[at + 3]) === areLost) {
        const [x, y] = placeIn(view, size, time, number);
        const spot = across * Math.round(2 * y) + Math.round(2 * x);
        const bit = 1 << points[at + 2];
        if ((drawn[spot] & bit) === 0) {
          drawn[spot] |= bit;
          yield [x, y, points[at + 2] === 1];
        }
      }
    }
  }

  // What is shown, as an SVG file with a title.
  file(title) {
    const { points, view, canvas } = this;
    const context = document.createElement("canvas").getContext("2d", { willReadFrequently: true });
    const ground = getComputedStyle(canvas.closest(".panel")).backgroundColor;
    const colors = Object.fromEntries(Object.entries({ ...this.colors, ground }).map(([name, color]) => (
      [name, plainColor(context, color)])));
    return chartOf(points, view, { width: canvas.clientWidth, height: canvas.clientHeight }, colors, title);
  }

  // What is dragged over, and the chosen packet.
  marks(context, height) {
    context.strokeStyle = this.colors.ink;
    if (this.drag && this.drag.to !== this.drag.from) {
      const { from, to } = this.drag;
      context.strokeRect(from, MARGIN.top, to - from, height - MARGIN.top - MARGIN.bottom);
    }
    if (this.at >= 0) {
      const [x, y] = this.place(this.points[POINT * this.at], this.points[POINT * this.at + 1]);
      context.beginPath();
      context.arc(x, y, 6, 0, 2 * Math.PI);
      context.stroke();
    }
  }

  // ---- pointer and keys

  // The point nearest to a place of the picture, of those that are shown, or -1.
  near(x, y) {
    const { points, view, size } = this;
    let [best, least] = [-1, NEAR ** 2];
    for (let at = 0; at < points.length; at += POINT) {
      if (isInView(view, points[at], points[at + 1])) {
        const [px, py] = placeIn(view, size, points[at], points[at + 1]);
        const away = (px - x) ** 2 + (py - y) ** 2;
        if (away < least) {
          [best, least] = [at / POINT, away];
        }
      }
    }
    return best;
  }

  say(at) {
    const [time, number, side, state] = this.points.subarray(POINT * at, POINT * at + 4);
    const sender = side === 0 ? "client" : "server";
    this.on.spot(at < 0 ? "" : `${sender}, packet ${number}, ${time.toFixed(6)} s, ${STATES[state]}`);
  }

  // Only the first button: of another one that opens a menu no end may be reported.
  press(event) {
    if (event.button === 0) {
      this.drag = { from: event.offsetX, to: event.offsetX };
      this.canvas.setPointerCapture(event.pointerId);
    }
  }

  letGo() {
    this.drag = null;
    this.draw();
  }

  move(event) {
    if (this.drag) {
      this.drag.to = event.offsetX;
      this.draw();
    } else {
      this.say(this.near(event.offsetX, event.offsetY));
    }
  }

  release(event) {
    const { drag } = this;
    this.drag = null;
    if (!drag) {
      return;
    }
    if (Math.abs(drag.to - drag.from) >= LEAST_DRAG) {
      this.enlarge(Math.min(drag.from, drag.to), Math.max(drag.from, drag.to));
    } else {
      this.choose(this.near(event.offsetX, event.offsetY));
    }
  }

  choose(at) {
    this.at = at;
    this.draw();
    if (at >= 0) {
      this.say(at);
      this.on.choose(this.points[POINT * at + 5]);
    }
  }

  // Shows what is between two places of the picture, with the numbers that are there.
  enlarge(from, to) {
    const [begin, end] = this.view;
    const width = this.canvas.clientWidth - MARGIN.left - MARGIN.right;
    const time = (x) => begin + (Math.max(0, Math.min(width, x - MARGIN.left)) / width) * (end - begin);
    const [first, last] = [time(from), time(to)];
    let [least, most] = [Infinity, -Infinity];
    for (let at = 0; at < this.points.length; at += POINT) {
      if (this.points[at] >= first && this.points[at] <= last) {
        least = Math.min(least, this.points[at + 1]);
        most = Math.max(most, this.points[at + 1]);
      }
    }
    if (last > first && least <= most) {
      this.view = [first, last, least, Math.max(most, least + 1)];
    }
    this.draw();
  }

  key(event) {
    // With these the browser goes back and forth.
    if (event.altKey || event.metaKey) {
      return;
    }
    const to = { ArrowRight: this.at + 1, ArrowLeft: this.at - 1, Home: 0, End: this.count - 1 }[event.key];
    if (event.key === "Escape") {
      this.all();
    } else if (to !== undefined && this.count > 0) {
      event.preventDefault();
      this.choose(Math.max(0, Math.min(this.count - 1, to)));
    }
  }
}
