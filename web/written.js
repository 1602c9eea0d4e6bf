// Bytes that aren't a dump: hexadecimal, lists as in source code and JSON, literals of Python and Rust, base64; and
// comments. Functions "with pauses" are generators (slices.js). What can't be read is a Fault.

import { AT_ONCE, eachLine, Pace } from "./slices.js";

export const HEX_DIGITS = /^[0-9a-f]*$/i;
const NOT_HEX = /[^0-9a-f]/i;
const PAIRS_WITH_BLANKS = /^[0-9a-f]{2}(?: [0-9a-f]{2})*$/i;
const SEPARATED = /[^ \t\r\n,:;(){}[\]"'\\]+/g;
const DECIMAL = /^(?:0|[1-9]\d{0,2})$/;
const ESCAPES = { a: 7, b: 8, t: 9, n: 10, v: 11, f: 12, r: 13, "\\": 92, "'": 39, '"': 34 };
const SPELLED = { "\0": "\\0", "\t": "\\t", "\r": "\\r", "\n": "\\n", "\\": "\\\\", "'": "\\'" };
const UNSEEN = /[\p{C}\p{Z}\p{Mn}\p{Me}]/u;
const BASE64_LINE = /^[A-Za-z0-9+/_-]+$/;
const BASE64_END = /={0,2}$/;

// Why there are no bytes, and from which character of the text on.
export class Fault {
  constructor(what, at) {
    this.what = what;
    this.at = at;
  }
}

function fail(what, at) {
  throw new Fault(what, at);
}

// What the readers in Rust and Python call a blank.
const isBlank = (text, at) => " \t\n\r\f".includes(text[at]);

export function trimmedStart(text) {
  let from = 0;
  while (from < text.length && isBlank(text, from)) {
    from += 1;
  }
  return text.slice(from);
}

export function trimmedEnd(text) {
  let to = text.length;
  while (to > 0 && isBlank(text, to - 1)) {
    to -= 1;
  }
  return text.slice(0, to);
}

export const trimmed = (text) => trimmedEnd(trimmedStart(text));

// The character at an offset, in quotes.
function characterAt(text, at) {
  const c = String.fromCodePoint(text.codePointAt(at));
  return `'${SPELLED[c] ?? (c !== " " && UNSEEN.test(c) ? `\\u{${c.codePointAt(0).toString(16)}}` : c)}'`;
}

// What is between separators, with its offset. After a backslash an x is one too.
function* wordsOf(text, begin) {
  SEPARATED.lastIndex = begin;
  for (let match = SEPARATED.exec(text); match; match = SEPARATED.exec(text)) {
    const { 0: word, index } = match;
    const end = SEPARATED.lastIndex;
    const isEscaped = word[0] === "x" && index > begin && text[index - 1] === "\\";
    if (!isEscaped) {
      yield [index, word];
    } else if (word.length > 1) {
      yield [index + 1, word.slice(1)];
    }
    SEPARATED.lastIndex = end;
  }
}

const DIGIT = new Int8Array(128).fill(-1);
for (let value = 0; value < 16; value += 1) {
  DIGIT[value.toString(16).charCodeAt(0)] = value;
  DIGIT[value.toString(16).toUpperCase().charCodeAt(0)] = value;
}

// Puts the bytes of an even number of digits at a place, with pauses. Returns the place behind them.
function* putDigits(bytes, from, digits) {
  let place = from;
  for (let at = 0; at < digits.length; at += 2, place += 1) {
    bytes[place] = 16 * DIGIT[digits.charCodeAt(at)] + DIGIT[digits.charCodeAt(at + 1)];
    if (at % AT_ONCE === AT_ONCE - 2) {
      yield;
    }
  }
  return place;
}

// The bytes in an even number of digits, with pauses.
export function* fromDigits(digits) {
  const bytes = new Uint8Array(digits.length / 2);
  yield* putDigits(bytes, 0, digits);
  return bytes;
}

// Bytes of two digits, at least one, with one blank between them or, if there is a gap, two behind the eighth; or null.
export function pairsOf(text, hasGap) {
  const pairs = hasGap && text.slice(23, 25) === "  " ? text.slice(0, 23) + text.slice(24) : text;
  return PAIRS_WITH_BLANKS.test(pairs) ? pairs.replace(/ /g, "") : null;
}

// The digits of groups with only blanks between them, or null.
export function groupsOf(text) {
  const groups = text.split(" ").filter((group) => group !== "");
  const areBytes = groups.length > 0 && groups.every((group) => group.length % 2 === 0 && HEX_DIGITS.test(group));
  return areBytes ? groups.join("") : null;
}

// Digits by twos, with separators between them; with pauses.
function* hexadecimalOf(text, begin) {
  const bytes = new Uint8Array((text.length - begin) >> 1);
  let place = 0;
  const pace = new Pace();
  for (const [at, word] of wordsOf(text, begin)) {
    const front = /^0x/i.test(word) ? 2 : 0;
    const digits = word.slice(front);
    const wrong = digits.search(NOT_HEX);
    if (wrong >= 0) {
      fail(`not hexadecimal: ${characterAt(text, at + front + wrong)}`, at + front + wrong);
    }
    if (digits === "" || digits.length % 2 === 1) {
      fail(digits === "" ? "no digits after 0x" : `an odd number of digits, ${digits.length},`, at);
    }
    place = yield* putDigits(bytes, place, digits);
    yield* pace.after(word.length);
  }
  return bytes.slice(0, place);
}

// The bytes of a list, if all its numbers may be decimal as in JSON, or null; with pauses.
function* decimalsOf(text, begin) {
  const value = text.slice(begin);
  if (!/[[{(]/.test(value) || /["'\\]/.test(value)) {
    return null;
  }
  const bytes = new Uint8Array(text.length - begin);
  let [count, first, haveTwo] = [0, begin, true];
  const pace = new Pace();
  for (const [at, word] of wordsOf(text, begin)) {
    if (!DECIMAL.test(word) || Number(word) > 255) {
      return null;
    }
    first = count === 0 ? at : first;
    haveTwo &&= word.length === 2;
    bytes[count] = Number(word);
    count += 1;
    yield* pace.after(word.length);
  }
  if (haveTwo && count > 0) {
    fail("ambiguous numbers, decimal or hexadecimal; add 0x to each, from the one", first);
  }
  return bytes.slice(0, count);
}

// Where the value begins that is given to a name, as in `uint8_t payload[] = {`; else 0.
function valueAt(text) {
  const end = text.indexOf("=");
  const [name, value] = [trimmedStart(text.slice(0, end < 0 ? 0 : end)), trimmedStart(text.slice(end + 1))];
  return end >= 0 && /^[a-z_]/i.test(name) && !/["'\\]/.test(name) && value !== "" && value[0] !== "=" ? end + 1 : 0;
}

// Where a literal of bytes begins, as b'..' of Python or Rust, or -1.
function literalAt(text) {
  const value = trimmedStart(text.slice(valueAt(text)));
  const bare = value.startsWith("bytearray(") ? value.slice(10) : value;
  return /^b['"]/.test(bare) ? text.length - bare.length : -1;
}

export const isLiteral = (line) => literalAt(line) >= 0;

// The byte that an escape means, and how many characters it has after its backslash, or null.
function escapedAt(text, at) {
  if (text[at] === "x") {
    const digits = text.slice(at + 1, at + 3);
    return digits.length === 2 && HEX_DIGITS.test(digits) ? [parseInt(digits, 16), 3] : null;
  }
  if (text[at] === "0") {
    return /^\d/.test(text.slice(at + 1, at + 2)) ? null : [0, 1];
  }
  const code = at < text.length && Object.hasOwn(ESCAPES, text[at]) ? ESCAPES[text[at]] : null;
  return code === null ? null : [code, 1];
}

// The bytes of a literal, with pauses.
function* literalOf(text, begin) {
  const quote = text[begin + 1];
  const bytes = [];
  let at = begin + 2;
  for (; at < text.length && text[at] !== quote; at += 1) {
    const escape = text[at] === "\\" ? escapedAt(text, at + 1) : [text.charCodeAt(at), 0];
    if (escape === null || text.charCodeAt(at) > 0x7f) {
      fail(escape === null ? "unknown escape:" : "value above one byte:", at);
    }
    bytes.push(escape[0]);
    at += escape[1];
    if (bytes.length % AT_ONCE === 0) {
      yield;
    }
  }
  if (at >= text.length) {
    fail("no closing quote for the bytes that begin", begin);
  }
  const behind = text.slice(at + 1).search(/[^) \t\r\n,;]/);
  if (behind >= 0) {
    fail("unexpected text after the bytes:", at + 1 + behind);
  }
  return Uint8Array.from(bytes);
}

// The bytes that a line, or the lines of a list, mean; with pauses. Throws a Fault.
export function* readPlain(text) {
  const literal = literalAt(text);
  if (literal >= 0) {
    return yield* literalOf(text, literal);
  }
  const begin = valueAt(text);
  return (yield* decimalsOf(text, begin)) ?? (yield* hexadecimalOf(text, begin));
}

// A line with blanks in place of comments.
export function withoutComments(line) {
  let [begin, at, marks] = [0, 0, /#|\/\/|\/\*/g];
  const parts = [];
  for (let mark = marks.exec(line); mark; mark = marks.exec(line)) {
    const close = mark[0] === "/*" ? line.indexOf("*/", mark.index + 2) : line.length - 2;
    const end = close + 2;
    if (mark[0] === "/*" && close < 0) { // no other is closed either
      [at, marks] = [mark.index + 1, /#|\/\//g];
    } else {
      parts.push(line.slice(begin, mark.index), line.slice(mark.index, end).replace(/[^]/gu, " "));
      [begin, at] = [end, end];
    }
    marks.lastIndex = at;
  }
  return parts.join("") + line.slice(begin);
}

// How many brackets are open after a line, if this many were before it.
export function openBrackets(before, line) {
  let open = before;
  for (const [bracket] of line.matchAll(/[[{()}\]]/g)) {
    open = "[{(".includes(bracket) ? open + 1 : Math.max(0, open - 1);
  }
  return open;
}

// Whether a line is the number of bytes, as `xxd -i` and `xxd -C -i` print it below them.
export function isLength(line) {
  const text = trimmed(line);
  return text.startsWith("unsigned int ") && text.endsWith(";") && text.toLowerCase().includes("_len = ");
}

// The digits of base64 in a text, with pauses, or null if anything else is in it. Its lines may end anywhere, but no
// line has a blank.
function* base64Digits(text) {
  const whole = text.trim().replace(BASE64_END, "");
  const lines = [];
  const pace = new Pace();
  for (const line of eachLine(whole)) {
    const digits = line.trimEnd();
    if (!BASE64_LINE.test(digits) && (digits !== "" || lines.length === 0)) {
      return null;
    }
    lines.push(digits);
    yield* pace.after(line.length);
  }
  return /\s$/.test(whole) ? null : lines.join("");
}

// The bytes of base64, with pauses, or null.
export function* base64Of(text) {
  const digits = yield* base64Digits(text);
  if (digits === null || digits.length % 4 === 1) {
    return null;
  }
  const bytes = new Uint8Array(Math.floor(digits.length * 3 / 4));
  for (let from = 0, place = 0; from < digits.length; from += AT_ONCE) {
    const part = atob(digits.slice(from, from + AT_ONCE).replace(/-/g, "+").replace(/_/g, "/"));
    for (let at = 0; at < part.length; at += 1, place += 1) {
      bytes[place] = part.charCodeAt(at);
    }
    if (from > 0) {
      yield;
    }
  }
  return bytes;
}
