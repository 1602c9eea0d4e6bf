// The inputs in a text that has several: a list from which one is chosen with the pointer or the keys.

import { toHex } from "./bytes.js";
import { element, Rows } from "./rows.js";

const SHOWN_DIGITS = 64;
// Up to this many inputs may wrap if their descriptions are long.
const WRAPPED_ENTRIES = 100;

export class EntryList {
  // |on| has summary(entry), which returns what an input is and whether it has an error, and select(index).
  constructor(box, on) {
    this.box = box;
    this.on = on;
    this.entries = [];
    this.at = 0;
    this.summaries = new Map();
    this.rows = new Rows(box, (index) => this.line(index), WRAPPED_ENTRIES);
    box.addEventListener("click", (event) => this.click(event));
    box.addEventListener("keydown", (event) => this.key(event));
  }

  show(entries, at) {
    this.entries = entries;
    this.at = at;
    this.summaries.clear();
    this.rows.setCount(entries.length);
    this.rows.reveal(at);
    this.mark();
  }

  line(index) {
    const { bytes, fault, line } = this.entries[index];
    if (!this.summaries.has(index)) {
      this.summaries.set(index, fault ? { text: fault, isBad: true } : this.on.summary(bytes));
    }
    const { text, isBad } = this.summaries.get(index);
    const option = element("div", "line entry", "", {
      id: `${this.box.id}-${index}`, role: "option", ariaSetSize: this.entries.length, ariaPosInSet: index + 1,
    });
    option.dataset.index = index;
    option.classList.toggle("bad", isBad);
    option.append(
      element("span", "number", `${index + 1}`), element("span", "digits", digitsOf(bytes)),
      element("span", "value", text), element("span", "place", `line ${line}`),
    );
    this.markLine(option, index);
    return option;
  }

  markLine(option, index) {
    option.classList.toggle("chosen", index === this.at);
    option.ariaSelected = index === this.at;
  }

  mark() {
    for (const option of this.box.querySelectorAll(".entry")) {
      this.markLine(option, Number(option.dataset.index));
    }
    this.box.setAttribute("aria-activedescendant", `${this.box.id}-${this.at}`);
  }

  choose(to) {
    if (to !== this.at) {
      this.at = to;
      this.rows.reveal(to);
      this.mark();
      this.on.select(to);
    }
  }

  click(event) {
    const option = event.target.closest?.(".entry");
    if (option) {
      this.choose(Number(option.dataset.index));
    }
  }

  key(event) {
    const to = event.altKey || event.metaKey ? null : this.rows.step(event.key, this.at);
    if (to !== null) {
      event.preventDefault();
      this.choose(to);
    }
  }
}

// The first bytes of an input.
function digitsOf(bytes) {
  const digits = bytes ? toHex(bytes.subarray(0, SHOWN_DIGITS / 2)) : "";
  return bytes && bytes.length > SHOWN_DIGITS / 2 ? `${digits}…` : digits;
}
