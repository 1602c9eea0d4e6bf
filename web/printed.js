// The panel with what quic-show prints of the same bytes.

import { VERSIONS } from "./formats.js";
import { versionsText } from "./link.js";
import { element } from "./rows.js";
import { canonicalLine, command, textOf } from "./text.js";

const PRINTED_LINES = 5000;

function printBlock(box, chosen, words, text, isCut) {
  const title = element("p", "printed-title");
  title.append(element("code", "", `quic-show ${words}`));
  const isOwn = chosen.mode === "datagram"
    && (chosen.grease || versionsText(chosen.versions) !== versionsText(VERSIONS));
  if (isOwn) {
    title.append(" with the versions and the fixed bit as chosen here, for which it has no options");
  }
  const block = element("pre", "", text, { tabIndex: 0, role: "group", ariaLabel: `what quic-show ${words} prints` });
  block.dataset.command = words;
  box.append(title, block);
  if (isCut) {
    box.append(element("p", "printed-title", `The first ${PRINTED_LINES} lines.`));
  }
}

// Prints a reading into a box, with the choices that it was read with.
export function printInto(box, reading, chosen) {
  box.replaceChildren();
  const { lines, isCut } = textOf(reading, PRINTED_LINES);
  printBlock(box, chosen, command(chosen), lines.join("\n"), isCut);
  if (reading.unit === "frame") {
    printBlock(box, chosen, "canon", canonicalLine(reading.canonical()), false);
  }
}
