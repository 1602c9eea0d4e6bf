// The list of a capture's packets, which come from the worker in pages, and its filter.

import { element, Rows } from "./rows.js";

const PAGE_ROWS = 200;
// How many pages are kept, the latest.
const MOST_PAGES = 50;
// After how many milliseconds without a key the filter is applied.
const FILTER_DELAY = 150;

const millis = (seconds) => `${(Number(seconds) * 1000).toFixed(1)} ms`;

// What became of a packet.
function outcomeOf({ opened, acknowledged_after: after, lost }) {
  if (after !== undefined) {
    return lost ? `acked after ${millis(after)}, had counted as lost` : `acked after ${millis(after)}`;
  }
  return lost ? `lost, by ${lost === "time" ? "time" : "later packets"}` : opened ? "not acked" : "";
}

const COLUMNS = [
  ["record", "Record"], ["time", "Time, s"], ["connection", "Conn."], ["sender", "From"], ["type", "Packet"],
  ["number", "Number"], ["size", "Bytes"], ["text", "Frames"], ["state", "State"],
];

// The texts of a row, by the names of the columns.
function textsOf(row) {
  const [begin, end] = row.packet_in_datagram;
  const broken = row.broken.map(({ section }) => `✗ ${section}`).join(", ");
  return {
    ...row, time: Number(row.time).toFixed(6), size: end - begin, state: outcomeOf(row),
    text: [broken, row.again ? "sent again" : "", row.text].filter(Boolean).join(" · "),
  };
}

export class CaptureList {
  // |ask| sends a message to the worker; |choose| is called with the row that was chosen.
  constructor({ list, head, filter, note }, ask, choose) {
    Object.assign(this, { list, filter, note, ask, choose });
    this.forget();
    head.replaceChildren(...COLUMNS.map(([name, title]) => element("span", name, title)));
    this.rows = new Rows(list, (at) => this.row(at), 0, () => this.come);
    list.addEventListener("click", (event) => this.click(event.target.closest(".packet-row")));
    list.addEventListener("keydown", (event) => this.key(event));
    filter.addEventListener("input", () => this.filterSoon());
  }

  forget() {
    clearTimeout(this.timer);
    this.pages = new Map();
    this.count = 0;
    this.at = -1;
    // Whether the chosen row hasn't come yet.
    this.isAwaited = false;
    this.rows?.setCount(0);
    this.mark();
  }

  // Shows this many packets, from the first one on.
  show(count) {
    this.pages.clear();
    this.count = count;
    this.rows.setCount(count);
  }

  // ---- the filter

  filterSoon(delay = FILTER_DELAY) {
    clearTimeout(this.timer);
    this.timer = setTimeout(() => this.apply(this.filter.value), delay);
  }

  // |filtering| is called whenever the filter is another one.
  apply(text) {
    clearTimeout(this.timer);
    this.filter.value = text;
    this.ask("filter", { text });
    this.filtering?.();
  }

  // What the worker made of the filter: what it lets through, or why it can't be read.
  filtered({ isRead, text, shown }) {
    this.filter.setAttribute("aria-invalid", !isRead);
    this.note.classList.toggle("fault", !isRead);
    this.note.textContent = isRead ? `${shown} shown: ${text}` : text;
    // One that can't be read leaves the list as it is, unless that is another capture's.
    if (isRead || shown !== this.count) {
      [this.at, this.isAwaited] = [-1, false];
      this.show(shown);
      this.mark();
    }
  }

  // ---- rows

  // A page of rows that came.
  take({ from, list }) {
    const page = from / PAGE_ROWS;
    this.pages.delete(page);
    this.pages.set(page, list);
    const [oldest] = this.pages.keys();
    if (this.pages.size > MOST_PAGES) {
      this.pages.delete(oldest);
    }
    this.rows.refresh(true);
    if (this.isAwaited) {
      this.chooseRow();
    }
  }

  // How many of the first rows came.
  get come() {
    let pages = 0;
    while (this.pages.get(pages)) {
      pages += 1;
    }
    return pages * PAGE_ROWS;
  }

  // The row at a place of the list, if it came.
  rowAt(at) {
    return this.pages.get(Math.floor(at / PAGE_ROWS))?.[at % PAGE_ROWS];
  }

  row(at) {
    const page = Math.floor(at / PAGE_ROWS);
    if (!this.pages.has(page)) {
      this.pages.set(page, null);
      this.ask("rows", { from: page * PAGE_ROWS, to: (page + 1) * PAGE_ROWS });
    }
    const row = this.rowAt(at);
    const line = element("div", "packet-row", "", { role: "option", id: `packet-${at}` });
    line.dataset.at = at;
    line.setAttribute("aria-selected", at === this.at);
    line.setAttribute("aria-posinset", at + 1);
    line.setAttribute("aria-setsize", this.count);
    if (!row) {
      line.append(element("span", "text", "…"));
      return line;
    }
    const texts = textsOf(row);
    line.append(...COLUMNS.map(([name]) => {
      const text = `${texts[name] ?? ""}`;
      return element("span", name, text, { title: text });
    }));
    line.classList.toggle("lost", row.lost !== undefined && row.acknowledged_after === undefined);
    line.classList.toggle("rejected", row.rejected || row.broken.length > 0);
    line.classList.toggle("closed", !row.opened);
    line.dataset.index = row.index;
    return line;
  }

  click(line) {
    if (line?.dataset.index !== undefined) {
      this.select(Number(line.dataset.at));
    }
  }

  key(event) {
    const to = event.altKey || event.metaKey ? null : this.rows.step(event.key, this.at);
    if (to === null || this.count === 0) {
      return;
    }
    event.preventDefault();
    this.rows.reveal(to);
    this.select(to);
  }

  // Chooses the row at a place of the list.
  select(at) {
    this.at = at;
    this.rows.refresh(true);
    this.mark();
    this.chooseRow();
  }

  // Tells screen readers which row is chosen.
  mark() {
    if (this.at < 0) {
      this.list.removeAttribute("aria-activedescendant");
    } else {
      this.list.setAttribute("aria-activedescendant", `packet-${this.at}`);
    }
  }

  // Shows the chosen row, once it is there.
  chooseRow() {
    const row = this.rowAt(this.at);
    this.isAwaited = !row;
    if (row) {
      this.choose(row);
    }
  }

  // Shows a packet by its index among all, also if the filter hides it.
  goTo(index) {
    this.ask("position", { index });
  }

  // Where a packet is in the list, or -1.
  found({ index, at }) {
    if (at < 0) {
      this.apply("");
      this.ask("position", { index });
      return;
    }
    this.rows.reveal(at);
    [this.at, this.isAwaited] = [at, false];
    this.rows.refresh(true);
    this.mark();
    this.choose({ index });
  }
}
