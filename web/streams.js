// The streams of a connection as a table: how many bytes each side sent on each, which of them again, and which weren't
// seen.

import { element } from "./rows.js";
import { count } from "./shown.js";

// How many rows are shown at first, and how many more at a time.
const MOST_AT_A_TIME = 100;
const STREAM_COLUMNS = ["stream", "sender", "frames", "bytes", "sent again", "not seen", "end"];

// How the sender's part of a stream ended, as far as it was seen.
function endText({ final_size: size, reset, stopped }) {
  return [
    reset === undefined ? size === undefined ? "" : `FIN at ${size}` : `reset with ${reset} at ${size}`,
    stopped === undefined ? "" : `its receiver stopped it with ${stopped}`,
  ].filter(Boolean).join("; ") || "open";
}

// What wasn't seen, with the gaps that are named.
function missingText({ missing, gaps, gap_count: all, rough }) {
  if (missing === 0) {
    return "–";
  }
  const named = gaps.map(([begin, end]) => `${begin}..${end}`).join(", ");
  const more = all > gaps.length ? ` and ${all - gaps.length} more gaps` : "";
  return `${missing}${rough ? " at most" : ""}: ${named}${more}`;
}

// What a row says.
export function streamTexts(stream) {
  const { stream: id, initiator, direction, sender, frames, bytes, again, rough } = stream;
  return [
    `${id}, ${initiator}’s ${direction}`, sender, `${frames}`, `${bytes}${rough ? " at least" : ""}`,
    again === 0 ? "–" : `${again}`, missingText(stream), endText(stream),
  ];
}

export class StreamTable {
  // |ask| asks for the streams between two positions, which |take| takes.
  constructor(total, ask) {
    Object.assign(this, { total, ask, shown: 0 });
    this.box = element("details", "stream-details");
    this.body = element("tbody");
    this.more = element("button", "plain", "Show more", { type: "button", hidden: true });
    const [table, head, row] = [element("table", "streams"), element("thead"), element("tr")];
    row.append(...STREAM_COLUMNS.map((text) => element("th", "", text, { scope: "col" })));
    head.append(row);
    table.append(head, this.body);
    const title = `Bytes of ${count(total, "stream")}, each side that sends counted`;
    this.box.append(element("summary", "", title), table, this.more);
    this.box.addEventListener("toggle", () => this.begin());
    this.more.addEventListener("click", () => this.next());
  }

  // Asks for the first rows when they are to be seen.
  begin() {
    if (this.box.open && this.shown === 0) {
      this.next();
    }
  }

  next() {
    this.ask(this.shown, this.shown + MOST_AT_A_TIME);
  }

  take({ from, list }) {
    if (from !== this.shown) {
      return;
    }
    this.body.append(...list.map((stream) => {
      const row = element("tr");
      const [id, ...texts] = streamTexts(stream);
      row.append(element("th", "", id, { scope: "row" }), ...texts.map((text) => element("td", "", text)));
      return row;
    }));
    this.shown += list.length;
    this.more.hidden = this.shown >= this.total;
  }
}
