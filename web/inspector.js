// The line about what is lit: the field and its full value, its item, its offsets, and the section of an RFC that
// describes it.

import { linesOf } from "./outline.js";
import { rangesText } from "./reading.js";
import { sectionOf } from "./rfc.js";
import { element } from "./rows.js";
import { bytesText, count } from "./shown.js";

const FULL_BYTES = 256;

const placeText = (begin, end) => `${count(end - begin, "byte")}, ${begin}..${end}`;

// The full value of a field, as far as it fits into a few lines.
function valueOf(field, bytes) {
  if (field.ranges) {
    return rangesText(field.ranges);
  }
  if (field.number === undefined && field.opaque && !field.fault) {
    return bytesText(bytes.subarray(field.begin, field.end), FULL_BYTES);
  }
  return field.value;
}

// A link that is followed only by a click, and sends nothing about this page to the server of the RFC.
function sectionLink(unit, item, field) {
  const { text, address } = sectionOf(unit, item, field);
  return element("a", "section", text, { href: address, target: "_blank", rel: "noreferrer" });
}

export function inspect(box, reading, spot) {
  box.hidden = spot === null;
  if (spot === null) {
    return;
  }
  const item = reading.item(spot.item);
  const field = spot.field < 0 ? null : linesOf(item)[spot.field];
  const shown = field ?? item;
  const value = field ? valueOf(field, reading.bytes) : item.summary;
  box.className = `inspector tone ${item.tone}`;
  box.replaceChildren(
    element("strong", "", shown.name), element("span", "value", value),
    ...(field?.note ? [element("span", "of", field.note)] : []),
    ...(field ? [element("span", "of", `of ${item.name}`)] : []),
    element("span", "place", placeText(shown.begin, shown.end)), sectionLink(reading.unit, item, field),
  );
}
