// A line of a dump. The manual page of quic-wire has the rule; rust/ and python/ have the same reader.

import { isRightAligned, orderOf, UNTOLD, SWAPPED } from "./dump-order.js";
import { groupsOf, pairsOf, trimmed, trimmedEnd } from "./written.js";

const BITS = "these are bits, as xxd -b prints them; use xxd without -b";
const SWAPPED_UNITS = "the bytes of each group are swapped, as hexdump without -C and od -x print them; use hexdump "
  + "-C or od -t x1";
const UNITS = "these are numbers, not bytes in hexadecimal, as hexdump without -C and od without -t x1 print them; "
  + "use hexdump -C or od -t x1";
const NO_BYTES = "an offset without bytes after it as xxd or tcpdump print them";

// Which program prints such lines: whether it prints the offset of the end, and how many digits that has; the base of
// its offsets, and whether they may be decimal too, which the lines after them show.
const COLON = { base: 16, mayBeDecimal: true, isClosed: false, end: /^$/ }; // xxd; tcpdump -x, -X, after 0x
const HEXDUMP = { base: 16, isClosed: true, end: /^[0-9a-f]{8,12}$/i }; // hexdump -C
const WIRESHARK = { base: 16, isClosed: false, end: /^$/ }; // Wireshark, tshark -x
const OD_HEX = { base: 16, isClosed: true, end: /^[0-9a-f]{6}$/i }; // od -A x -t x1
const OD = { base: 8, mayBeDecimal: true, isClosed: true, end: /^\d{7}$/ }; // od -t x1
export const OF_NUMBERS = { base: 16, isClosed: true, end: /^[0-9a-f]{6,7}$/i }; // hexdump without -C, od without -t x1

// What a line is if the one below it doesn't go on from it: a line of a dump, that or plain hexadecimal, or the latter.
export const DUMP = "dump";
const AMBIGUOUS = "ambiguous";
export const PLAIN = "plain";

const FRONT = /^(0x)?([0-9a-f]{4,12})(:(?= |$)| +)/i;
const COLUMN = /^ +[^ ]+/;
const NUMBER = /^ +-?[0-9a-f]+$/i;
const BIT_GROUPS = /^[01]{8}(?: [01]{8})*$/;
const TIME = /^[0-9:.]{8}\.[0-9:.]{6}$/;

function numberIn(digits, base) {
  const isOne = base === 16 || (base === 8 ? /^[0-7]+$/ : /^\d+$/).test(digits);
  return isOne ? parseInt(digits, base) : null;
}

// A text with a character for each byte of its UTF-8.
function asBytes(text) {
  return /[^\x00-\x7f]/.test(text) ? new TextDecoder("latin1").decode(new TextEncoder().encode(text)) : text;
}

// What the digits of an offset mean, in the base of the form and, if they may be, in decimal; or null.
export function offsetsOf(form, digits, is0x = false) {
  const offsets = [numberIn(digits, form.base), form.mayBeDecimal && !is0x ? numberIn(digits, 10) : null];
  return offsets[0] === null && offsets[1] === null ? null : offsets;
}

// Whether it is the first line of what was dumped.
export const isFront = ({ offsets }) => offsets[0] === 0;

const lineOf = (form, offsets, more) => ({
  form, offsets, digits: "", columns: 0, order: UNTOLD, alone: DUMP, isLast: false, refusal: null, ...more,
});

// Whether a text has a character for each byte, behind the blanks of missing digits. An editor may have removed spaces
// at its end.
function isTextOf(shown, digits) {
  const count = digits.length / 2;
  const isPadded = /^ *$/.test(shown.slice(0, Math.max(0, shown.length - count)));
  return shown === "" || (isPadded && /^(?:20)*$/.test(digits.slice(2 * shown.length)));
}

function withColon(offsets, behind) {
  const rest = trimmed(behind);
  const end = rest.indexOf("  ");
  const [groups, shown] = end < 0 ? [rest, ""] : [rest.slice(0, end), rest.slice(end + 2)];
  if (BIT_GROUPS.test(groups) && trimmed(shown).length <= (groups.length + 1) / 9) {
    return lineOf(COLON, offsets, { refusal: BITS });
  }
  const digits = groupsOf(groups);
  const order = digits === null || isRightAligned(behind) ? SWAPPED : orderOf(groups, digits, shown);
  if (digits === null || (order !== SWAPPED && !isTextOf(shown, digits))) {
    return lineOf(COLON, offsets, { refusal: NO_BYTES });
  }
  const columns = digits.length / 2;
  return lineOf(COLON, offsets, { digits, columns, order, isLast: shown.length > columns && order !== SWAPPED });
}

// Six or seven digits and columns, wider than those of bytes, with numbers at their right ends; or null.
function ofNumbers(front, rest) {
  const width = COLUMN.exec(rest)?.[0].length ?? 0;
  if ((front.length !== 6 && front.length !== 7) || width < 4 || rest.length % width !== 0) {
    return null;
  }
  for (let at = 0; at < rest.length; at += width) {
    if (!NUMBER.test(rest.slice(at, at + width))) {
      return null;
    }
  }
  const isNarrow = rest[1] !== " ";
  const alone = front.length === 6 && isNarrow ? PLAIN : DUMP;
  const refusal = width === 5 && isNarrow ? SWAPPED_UNITS : UNITS;
  return lineOf(OF_NUMBERS, offsetsOf(OF_NUMBERS, front), { columns: rest.length / width, alone, refusal });
}

// The form whose offset has so many digits, with so many blanks behind it, or null.
function formOf(count, blanks) {
  if (blanks > 1) {
    const ofFour = count <= 6 ? WIRESHARK : null;
    return count >= 8 ? HEXDUMP : ofFour;
  }
  const ofSix = count === 6 ? OD_HEX : null;
  return count === 7 ? OD : ofSix;
}

// Where the text beside the bytes begins.
function shownAt(form, rest) {
  const signs = { [true]: "   ", [form === HEXDUMP && rest.includes("|")]: "|", [form === OD_HEX || form === OD]: ">" };
  const at = rest.indexOf(signs[true]);
  return at < 0 ? rest.length : at;
}

// An offset, blanks, and bytes of two digits.
function ofColumns(front, blanks, rest) {
  const form = formOf(front.length, blanks);
  const offsets = form && offsetsOf(form, front);
  const beside = offsets ? rest.slice(shownAt(form, rest)) : "";
  const digits = offsets ? pairsOf(trimmedEnd(rest.slice(0, rest.length - beside.length)), blanks > 1) : null;
  if (digits === null) {
    return null;
  }
  const columns = digits.length / 2;
  const isSure = beside !== "" || front.length % 2 === 1 || (form !== OD_HEX && offsets[0] === 0);
  const unsure = form === OD_HEX && !front.endsWith("0") ? PLAIN : AMBIGUOUS;
  const isLast = form === WIRESHARK && beside.length > columns + 3;
  return lineOf(form, offsets, { digits, columns, alone: isSure ? DUMP : unsure, isLast });
}

// A line of a dump, if a text is one, or null.
export function dumpLine(text) {
  const line = trimmed(text);
  const [begin, zero, front, blanks] = FRONT.exec(line) ?? [];
  if (begin === undefined) {
    return null;
  }
  const rest = asBytes(line.slice(begin.length));
  if (blanks === ":") {
    return zero === "0X" ? null : withColon(offsetsOf(COLON, front, zero !== undefined), rest.slice(1));
  }
  return zero === undefined ? ofNumbers(front, blanks + rest) ?? ofColumns(front, blanks.length, rest) : null;
}

// Whether a line is one that tshark or tcpdump prints above a dump: its source, or a summary of the packet.
export function isHeading(text) {
  const line = trimmed(text);
  const isDataSource = (line.endsWith(" bytes):") || line.endsWith("(1 byte):")) && line.includes("(");
  const time = line.split(" ", 2).find((word) => word.includes(":")) ?? "";
  const from = line.indexOf(" > ");
  return isDataSource || TIME.test(time) || line.includes(" → ") || (from >= 0 && line.indexOf(": ", from) >= 0);
}
