// The items and, under each that is open, its fields: an ARIA tree whose active line moves with the arrow keys.

import { element, Rows } from "./rows.js";
import { lastWhere } from "./search.js";
import { stripOf } from "./strip.js";

// At first this many items are open, of those with at most this many lines.
const OPEN_ITEMS = 200;
const OPEN_LINES = 64;
// Up to this many lines wrap if they are long; if there are more, each is cut off at the width of the tree.
const WRAPPED_LINES = 500;

// The lines under an item: its fields, the ranges of an ACK, the frames of an opened packet.
export function linesOf(item) {
  if (!item.ranges && !item.inner) {
    return item.fields;
  }
  const ranges = item.ranges ? [{ name: "Ranges", begin: item.begin, end: item.end, ranges: item.ranges }] : [];
  item.lines ??= [...item.fields, ...ranges, ...(item.inner ?? [])];
  return item.lines;
}

export class Outline {
  // |on| has hover(item, field), select(item, field) and enter(item, field); field is -1 for the item itself.
  constructor(box, on) {
    this.box = box;
    this.on = on;
    this.reading = null;
    this.spot = null;
    // The open items, by their index, and how many lines come before the first, the second, ... of them.
    this.open = [];
    this.before = [];
    this.rows = new Rows(box, (index) => this.line(index), WRAPPED_LINES);
    box.addEventListener("pointerover", (event) => this.over(event));
    box.addEventListener("pointerleave", () => on.hover(-1, -1));
    box.addEventListener("click", (event) => this.click(event));
    box.addEventListener("keydown", (event) => this.key(event));
  }

  show(reading) {
    this.reading = reading;
    this.spot = null;
    this.open = [];
    this.box.removeAttribute("aria-activedescendant");
    if (reading.count <= OPEN_ITEMS) {
      for (let index = 0; index < reading.count; index += 1) {
        if (linesOf(reading.item(index)).length <= OPEN_LINES) {
          this.open.push(index);
        }
      }
    }
    this.layOut();
    this.rows.setCount(this.lines);
  }

  // Counts the lines of open items.
  layOut() {
    this.before = [];
    let more = 0;
    for (const index of this.open) {
      this.before.push(more);
      more += linesOf(this.reading.item(index)).length;
    }
    this.lines = this.reading.count + more;
  }

  // The last open item for which |test| holds, given its index and the lines of open ones before it, or -1.
  lastOpen(test) {
    return lastWhere(this.open.length, (at) => test(this.open[at], this.before[at]));
  }

  // The item and the field on a line.
  at(line) {
    const last = this.lastOpen((index, before) => index + before < line);
    if (last < 0) {
      return { item: line, field: -1 };
    }
    const index = this.open[last];
    const behind = line - (index + this.before[last]);
    const count = linesOf(this.reading.item(index)).length;
    return behind <= count ? { item: index, field: behind - 1 } : { item: index + behind - count, field: -1 };
  }

  // The line of an item or, if that is open, of one of its fields.
  lineOf(item, field) {
    const last = this.lastOpen((index) => index < item);
    const before = last < 0 ? 0 : this.before[last] + linesOf(this.reading.item(this.open[last])).length;
    return item + before + (this.isOpen(item) ? field + 1 : 0);
  }

  isOpen(item) {
    return this.open[this.lastOpen((index) => index <= item)] === item;
  }

  // Opens or closes an item.
  toggle(item) {
    const at = this.lastOpen((index) => index <= item);
    if (this.open[at] === item) {
      this.open.splice(at, 1);
    } else {
      this.open.splice(at + 1, 0, item);
    }
    this.refresh();
  }

  // Draws the lines again, after what is open or the text of an item has changed.
  refresh() {
    const { scrollTop } = this.box;
    this.layOut();
    this.rows.setCount(this.lines);
    this.box.scrollTop = scrollTop;
    this.rows.refresh(true);
  }

  line(index) {
    const { item, field } = this.at(index);
    const shown = this.reading.item(item);
    const line = field < 0 ? this.itemLine(shown) : this.fieldLine(shown, field);
    Object.assign(line, { id: `${this.box.id}-${index}`, role: "treeitem" });
    Object.assign(line.dataset, { item, field });
    line.classList.add("line", "tone", shown.tone);
    this.lightLine(line, item, field);
    return line;
  }

  itemLine(item) {
    const isOpen = this.isOpen(item.index);
    const line = element("div", "item", "", {
      ariaLevel: 1, ariaExpanded: isOpen, ariaSetSize: this.reading.count, ariaPosInSet: item.index + 1,
    });
    line.append(
      element("span", "caret", isOpen ? "▾" : "▸", { ariaHidden: true }), element("span", "dot"),
      element("span", "name", item.name), element("span", "value", item.summary),
      element("span", "place", `${item.begin}..${item.end}`),
    );
    return line;
  }

  fieldLine(item, index) {
    const lines = linesOf(item);
    const field = lines[index];
    const line = element("div", "field", "", { ariaLevel: 2, ariaSetSize: lines.length, ariaPosInSet: index + 1 });
    line.classList.toggle("fault", Boolean(field.fault));
    line.append(element("span", "name", field.name));
    if (field.ranges) {
      line.append(...stripOf(field.ranges));
      return line;
    }
    line.append(element("span", "value", field.value));
    if (field.note) {
      line.append(element("span", "note", field.note));
    }
    const isInner = field.inner !== undefined;
    line.classList.toggle("inner", isInner);
    line.append(element("span", "place", isInner ? `payload ${field.place}` : `${field.begin}..${field.end}`));
    return line;
  }

  lightLine(line, item, field) {
    const { spot } = this;
    const isItem = spot !== null && spot.item === item;
    const isField = isItem && spot.field === field;
    line.classList.toggle("lit-item", isItem && !isField);
    line.classList.toggle("lit-field", isField);
    const isHere = isField && spot.isActive;
    line.classList.toggle("here", isHere);
    line.ariaSelected = isHere;
  }

  light(spot) {
    this.spot = spot;
    for (const line of this.box.querySelectorAll(".line")) {
      this.lightLine(line, Number(line.dataset.item), Number(line.dataset.field));
    }
    if (spot?.isActive) {
      const id = `${this.box.id}-${this.lineOf(spot.item, spot.field)}`;
      if (document.getElementById(id)) {
        this.box.setAttribute("aria-activedescendant", id);
      } else {
        this.box.removeAttribute("aria-activedescendant");
      }
    }
  }

  reveal(item, field) {
    this.rows.reveal(this.lineOf(item, field));
  }

  lineAt(target) {
    return target.closest?.(".line") ?? null;
  }

  over(event) {
    const line = this.lineAt(event.target);
    this.on.hover(line ? Number(line.dataset.item) : -1, line ? Number(line.dataset.field) : -1);
  }

  click(event) {
    const line = this.lineAt(event.target);
    if (!line) {
      return;
    }
    const item = Number(line.dataset.item);
    if (event.target.classList.contains("caret")) {
      this.toggle(item);
      this.on.select(item, -1);
    } else {
      this.on.select(item, Number(line.dataset.field));
    }
  }

  key(event) {
    if (this.reading.count === 0 || event.altKey || event.metaKey) {
      return;
    }
    const spot = this.spot?.isActive ? this.spot : null;
    const isUsed = this.openByKey(event.key, spot) || this.moveByKey(event.key, spot);
    if (isUsed) {
      event.preventDefault();
    }
  }

  // Enter, Right and Left. Returns whether the key did something.
  openByKey(key, spot) {
    if (!spot) {
      return false;
    }
    const { item, field } = spot;
    if (key === "Enter") {
      this.on.enter(item, field);
    } else if (key === "ArrowRight" && field < 0) {
      if (this.isOpen(item)) {
        this.on.select(item, linesOf(this.reading.item(item)).length > 0 ? 0 : -1);
      } else {
        this.toggle(item);
        this.on.select(item, -1);
      }
    } else if (key === "ArrowLeft") {
      if (field < 0 && this.isOpen(item)) {
        this.toggle(item);
      }
      this.on.select(item, -1);
    } else {
      return false;
    }
    return true;
  }

  moveByKey(key, spot) {
    const line = this.rows.step(key, spot ? this.lineOf(spot.item, spot.field) : -1);
    if (line === null) {
      return false;
    }
    const { item, field } = this.at(line);
    this.on.select(item, field);
    return true;
  }
}
