// Finds the inputs in pasted text: the pieces that the programs read too (pieces.js) and, beyond these, lines that
// belong together, base64, and logs with bytes in their lines. Functions "with pauses" are generators (slices.js).

import { fromHex, joinBytes } from "./bytes.js";
import { LINE, OF_DUMP, piecesOf } from "./pieces.js";
import { answerOf, eachLine, forEach, Pace } from "./slices.js";
import { base64Of, fromDigits } from "./written.js";

// In a line of a log, consecutive pairs of digits are searched for; a shorter run is a time, a length or the like.
const LOG_RUN = /(?<![0-9a-z_])(?:0x)?((?:[0-9a-f]{2}[ :]?)*[0-9a-f]{2})(?![0-9a-z_])/gi;
const LOG_DIGITS = 8;
const IN_LOG = "hexadecimal in a line of a log";
const HEXADECIMAL = "hexadecimal";
const BASE64 = "base64";
const DIGITS = /^[0-9a-f]+$/i;
// What base64 has besides the digits of hexadecimal.
const OF_BASE64 = /[g-z+/_-]/i;
// No line of an input that was wrapped within a byte is longer.
const LONGEST = 1000;

const inputOf = ({ line, bytes, fault, kind }) => ({ line, bytes, fault, form: kind === LINE ? HEXADECIMAL : kind });
const isPlain = ({ kind }) => kind === LINE || kind === BASE64;

// Pieces of lines that belong together, as one input; with pauses.
function* joined(pieces) {
  const parts = [];
  let form = HEXADECIMAL;
  yield* forEach(pieces, ({ kind, bytes }) => {
    parts.push(bytes);
    form = kind === BASE64 ? BASE64 : form;
  });
  return { line: pieces[0].line, bytes: yield* joinBytes(parts), fault: null, form };
}

// Groups of neighbouring lines, with pauses.
function* blocksOf(pieces) {
  const blocks = [];
  let before = null;
  yield* forEach(pieces, (piece) => {
    if (piece.line - 1 === before) {
      blocks[blocks.length - 1].push(piece);
    } else {
      blocks.push([piece]);
    }
    before = piece.last;
  });
  return blocks;
}

// Whether lines look like one input that was wrapped, with pauses: if one ends with a backslash, or if all have the
// same number of characters and the last one no more.
function* isWrapped(pieces) {
  const width = pieces[0].text.trim().length;
  let [isEven, goesOn, last] = [true, false, width];
  yield* forEach(pieces, (piece) => {
    const text = piece.text.trim();
    isEven &&= last === width;
    last = text.length;
    goesOn ||= text.endsWith("\\") && piece !== pieces.at(-1);
  });
  return goesOn || (isEven && last <= width);
}

// The longest run of digits in a line of a log, of several the last, or null. A run at the beginning of the line
// doesn't count, since such a line is meant to be only bytes.
function runOf(text, line) {
  let longest = "";
  for (const match of text.trim().matchAll(LOG_RUN)) {
    const digits = match[1].replace(/[ :]/g, "");
    if (match.index > 0 && digits.length >= longest.length) {
      longest = digits;
    }
  }
  return longest.length >= LOG_DIGITS ? { bytes: fromHex(longest), form: IN_LOG, fault: null, line } : null;
}

// The inputs in lines of a log, and how many lines have none; with pauses.
function* readLog(text) {
  const entries = [];
  const pace = new Pace();
  let [line, left] = [0, 0];
  for (const one of eachLine(text)) {
    line += 1;
    const entry = runOf(one, line);
    if (entry) {
      entries.push(entry);
    } else {
      left += one.trim() === "" ? 0 : 1;
    }
    yield* pace.after(one.length);
  }
  return { entries, left };
}

// Pieces of which those that can't be read are base64 each, or null if one isn't; with pauses.
function* withBase64(pieces) {
  const all = [];
  const pace = new Pace();
  for (const piece of pieces) {
    const bytes = piece.fault === null || !OF_BASE64.test(piece.text) ? piece.bytes : yield* base64Of(piece.text);
    if (bytes === null || !isPlain(piece)) {
      return null;
    }
    all.push(piece.fault === null ? piece : { ...piece, bytes, fault: null, kind: BASE64 });
    yield* pace.after(piece.text.length);
  }
  return all;
}

// The bytes of lines that are only digits and belong together although one may end within a byte, or null.
function* acrossLines(pieces) {
  const digits = [];
  yield* forEach(pieces, ({ kind, text }) => {
    if (kind === LINE && text.length < LONGEST && DIGITS.test(text.trim())) {
      digits.push(text.trim());
    }
  });
  const isOne = digits.length === pieces.length && (yield* blocksOf(pieces)).length === 1 && (yield* isWrapped(pieces));
  const all = isOne ? digits.join("") : "";
  return all !== "" && all.length % 2 === 0 ? yield* fromDigits(all) : null;
}

const one = (entry, both = false) => ({ entries: [entry], left: 0, both, lines: "one" });

// The pieces as they were read, with pauses.
function* asRead(pieces, both = false) {
  const entries = [];
  yield* forEach(pieces, (piece) => entries.push(inputOf(piece)));
  return { entries, left: 0, both, lines: entries.length > 1 ? "each" : "one" };
}

// Lines of bytes: one input or several; with pauses. |whole| are their bytes as one, if that isn't the bytes of each.
function* ofLines(pieces, lines, whole) {
  const blocks = yield* blocksOf(pieces);
  const isOne = pieces.length === 1 || lines === "one"
    || (lines === "auto" && blocks.length === 1 && (yield* isWrapped(pieces)));
  if (isOne) {
    const all = yield* joined(pieces);
    return one(whole ? { ...all, bytes: whole } : all, pieces.length > 1);
  }
  const entries = [];
  for (const block of blocks) {
    if (yield* isWrapped(block)) {
      entries.push(yield* joined(block));
    } else {
      yield* forEach(block, (piece) => entries.push(inputOf(piece)));
    }
  }
  return entries.length > 1 ? { entries, left: 0, both: true, lines: "each" } : yield* asRead(pieces, true);
}

// Pieces of which some can't be read, in another way: as base64 or as a log. If they can't be read so either, the
// faults.
function* otherwise(text, pieces, lines) {
  let [mayDiffer, isBase64] = [true, false];
  yield* forEach(pieces, ({ kind, line, last, fault, text: written }) => {
    mayDiffer &&= kind !== OF_DUMP && (fault !== null || last === line);
    isBase64 ||= fault !== null && OF_BASE64.test(written);
  });
  const digits = mayDiffer ? yield* acrossLines(pieces) : null;
  if (digits) {
    return one({ line: pieces[0].line, bytes: digits, fault: null, form: HEXADECIMAL });
  }
  const whole = mayDiffer && isBase64 ? yield* base64Of(text) : null;
  const each = mayDiffer && isBase64 ? yield* withBase64(pieces) : null;
  if (each) {
    return yield* ofLines(each, lines, whole);
  }
  if (whole) {
    return one({ line: 1, bytes: whole, fault: null, form: BASE64 });
  }
  const log = mayDiffer ? yield* readLog(text) : { entries: [] };
  return log.entries.length > 0 ? { ...log, both: false, lines: "each" } : yield* asRead(pieces);
}

// The inputs in a text, with pauses. |lines| says whether its lines belong together ("one") or not ("each"), or is
// "auto". Returns the inputs, how many lines have none, whether the lines can be read both ways, and how they were
// read.
export function* entriesOf(text, lines) {
  const pieces = [];
  let [hasFault, arePlain] = [false, true];
  yield* forEach(yield* piecesOf(text), (piece) => {
    if (piece.bytes === null || piece.bytes.length > 0 || !isPlain(piece)) {
      pieces.push(piece);
      hasFault ||= piece.fault !== null;
      arePlain &&= isPlain(piece);
    }
  });
  if (pieces.length === 0) {
    return one({ bytes: new Uint8Array(), form: HEXADECIMAL, fault: null, line: 1 });
  }
  if (hasFault) {
    return yield* otherwise(text, pieces, lines);
  }
  return arePlain ? yield* ofLines(pieces, lines, null) : yield* asRead(pieces);
}

// The same without pauses.
export const readEntries = (text, lines = "auto") => answerOf(entriesOf(text, lines));

// The one input of a text.
export function readText(text) {
  const { entries: [entry, ...others] } = readEntries(text, "one");
  return others.length === 0 ? entry : { bytes: null, form: null, fault: `${1 + others.length} inputs instead of one` };
}
