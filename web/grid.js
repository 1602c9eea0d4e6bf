// The bytes, each in the tone of its item: an ARIA grid whose active cell moves with the arrow keys.

import { hexOfByte } from "./bytes.js";
import { element, Rows } from "./rows.js";

export class Grid {
  // |on| has hover(offset or -1), select(offset) and enter(offset).
  constructor(box, on) {
    this.box = box;
    this.on = on;
    this.reading = null;
    this.columns = 16;
    this.spot = null;
    // Whether the byte at an offset differs from the corresponding one, if two inputs are compared.
    this.differs = null;
    this.rows = new Rows(box, (index) => this.line(index));
    box.addEventListener("pointerover", (event) => on.hover(this.placeOf(event.target)));
    box.addEventListener("pointerleave", () => on.hover(-1));
    box.addEventListener("click", (event) => this.click(event));
    box.addEventListener("keydown", (event) => this.key(event));
  }

  show(reading, columns, differs = null) {
    this.reading = reading;
    this.columns = columns;
    this.spot = null;
    this.differs = differs;
    this.box.removeAttribute("aria-activedescendant");
    const lines = Math.ceil(reading.bytes.length / columns);
    Object.assign(this.box, { ariaRowCount: lines, ariaColCount: columns });
    this.rows.setCount(lines);
  }

  placeOf(target) {
    const place = target.dataset?.place;
    return place === undefined ? -1 : Number(place);
  }

  click(event) {
    const place = this.placeOf(event.target);
    if (place >= 0) {
      this.on.select(place);
    }
  }

  line(index) {
    const line = element("div", "line", "", { role: "row", ariaRowIndex: index + 1 });
    const begin = index * this.columns;
    line.append(element("span", "offset", begin.toString(16).padStart(4, "0"), { role: "rowheader" }));
    const end = Math.min(begin + this.columns, this.reading.bytes.length);
    for (let place = begin; place < end; place += 1) {
      line.append(this.cell(place));
    }
    return line;
  }

  cell(place) {
    const { reading } = this;
    const id = `${this.box.id}-${place}`;
    const cell = element("span", "byte", hexOfByte(reading.bytes[place]), { role: "gridcell", id });
    cell.dataset.place = place;
    const index = reading.indexAt(place);
    cell.classList.toggle("differs", this.isOther(place));
    if (index >= 0) {
      this.paint(cell, place, reading.item(index));
    }
    if (this.spot?.isActive && this.spot.place === place) {
      this.name(cell, this.spot);
    }
    return cell;
  }

  // Gives the active cell its name, which it also has when it is drawn again.
  name(cell, { place, label }) {
    cell.ariaLabel = `byte ${place}, ${cell.textContent}, ${label}${this.isOther(place) ? ", differs" : ""}`;
  }

  isOther(place) {
    return this.differs !== null && this.differs[place] === 1;
  }

  // Marks what differs from another input, or nothing.
  compare(differs) {
    this.differs = differs;
    for (const cell of this.box.querySelectorAll(".byte")) {
      cell.classList.toggle("differs", this.isOther(Number(cell.dataset.place)));
    }
  }

  paint(cell, place, item) {
    const { classList } = cell;
    classList.add("tone", item.tone);
    const at = this.reading.fieldAt(item, place);
    const field = item.fields[at];
    classList.toggle("first", place === item.begin);
    classList.toggle("last", place === item.end - 1);
    classList.toggle("cut", place !== item.begin && field?.begin === place);
    classList.toggle("opaque", Boolean(field?.opaque));
    classList.toggle("fault", Boolean(field?.fault));
    cell.dataset.item = item.index;
    cell.dataset.field = at;
    this.lightCell(cell, place, item.index);
  }

  lightCell(cell, place, index) {
    const { spot } = this;
    const isItem = spot !== null && spot.item === index;
    const isField = isItem && spot.begin <= place && place < spot.end;
    cell.classList.toggle("lit-item", isItem && !isField);
    cell.classList.toggle("lit-field", isField);
    cell.classList.toggle("here", spot !== null && spot.isActive && spot.place === place);
  }

  // Lights the bytes of a spot: its item, and its field from |begin| to |end|.
  light(spot) {
    this.spot = spot;
    for (const cell of this.box.querySelectorAll(".byte")) {
      this.lightCell(cell, Number(cell.dataset.place), Number(cell.dataset.item ?? -1));
    }
    if (spot?.isActive) {
      this.activate(spot);
    }
  }

  activate(spot) {
    const cell = document.getElementById(`${this.box.id}-${spot.place}`);
    if (!cell) {
      this.box.removeAttribute("aria-activedescendant");
      return;
    }
    this.name(cell, spot);
    this.box.setAttribute("aria-activedescendant", cell.id);
  }

  reveal(place) {
    this.rows.reveal(Math.floor(place / this.columns));
  }

  key(event) {
    const { length } = this.reading.bytes;
    if (length === 0 || event.altKey || event.metaKey) {
      return;
    }
    const here = this.spot?.isActive ? this.spot.place : -1;
    if (event.key === "Enter" && here >= 0) {
      event.preventDefault();
      this.on.enter(here);
      return;
    }
    const to = this.moved(event, here, length);
    if (to !== null) {
      event.preventDefault();
      this.on.select(Math.max(0, Math.min(length - 1, to)));
    }
  }

  // Where a key leads from |here|, or null.
  moved({ key, ctrlKey }, here, length) {
    const { columns } = this;
    const line = here - (here % columns);
    const steps = {
      ArrowRight: here + 1,
      ArrowLeft: here - 1,
      ArrowDown: here + columns < length ? here + columns : here,
      ArrowUp: here - columns >= 0 ? here - columns : here,
      PageDown: Math.min(here + this.rows.page * columns, length - 1),
      PageUp: here - this.rows.page * columns,
      Home: ctrlKey ? 0 : line,
      End: ctrlKey ? length - 1 : line + columns - 1,
    };
    if (!(key in steps)) {
      return null;
    }
    return here < 0 ? 0 : steps[key];
  }
}
