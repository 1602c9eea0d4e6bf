// Splits a text into what is read as one: a line, the lines of a dump, or those of a list. The manual page of quic-wire
// has the rule; rust/ and python/ have the same reader. Functions "with pauses" are generators (slices.js).

import { isHeading, dumpLine } from "./dump-line.js";
import { ANOTHER, Dump, GOES_ON } from "./dump.js";
import { eachLine, Pace } from "./slices.js";
import {
  Fault, fromDigits, HEX_DIGITS, isLength, isLiteral, openBrackets, readPlain, trimmed, withoutComments,
} from "./written.js";

const OPEN = "a bracket is not closed";

// What a piece was written as.
export const LINE = "a line";
export const LIST = "a list of bytes";
export const OF_DUMP = "a dump";

// The fault of lines that begin with a line of this number.
function faultText({ what, at }, text, line) {
  const before = text.slice(0, at).split("\n");
  // A character has one unit that isn't the second of two.
  const column = 1 + before.at(-1).replace(/[\udc00-\udfff]/g, "").length;
  return before.length === 1 ? `${what} in column ${column}`
    : `${what} in line ${line + before.length - 1}, column ${column}`;
}

class Pieces {
  found = [];
  line = 0;
  dump = null;
  // Lines of a list that isn't whole, how many of its brackets aren't closed, whether a comma is the last character.
  list = null;
  // Whether a dump ended with the line before, ignoring blank ones, and whether that line couldn't be read.
  isBehindDump = false;
  isBelowFault = false;

  put(line, text, kind, bytes, fault) {
    this.found.push({ line, last: this.line, text, kind, bytes, fault });
    this.isBelowFault = fault !== null && kind !== OF_DUMP;
  }

  // Adds a line, with pauses.
  * take(text) {
    this.line += 1;
    if (this.list) {
      yield* this.goOn(text);
      return;
    }
    const step = this.dump ? this.dump.take(this.line, text) : ANOTHER;
    if (step !== GOES_ON) {
      yield* this.finishDump();
    }
    if (step === ANOTHER) {
      yield* this.begin(text);
    }
  }

  // A line after what is whole.
  * begin(text) {
    const { isBelowFault, isBehindDump: wasBehindDump } = this;
    const isBlank = trimmed(text) === "";
    if (this.isBehindDump && isBlank) {
      this.isBelowFault = false;
      return;
    }
    this.isBelowFault = false;
    this.isBehindDump = false;
    if (HEX_DIGITS.test(text)) {
      yield* this.read(this.line, text, LINE);
      return;
    }
    const first = dumpLine(text);
    if (first) {
      this.dump = new Dump(this.line, text, first, isBelowFault);
      if (first.isLast) {
        yield* this.finishDump();
      }
      return;
    }
    if (isLiteral(text)) {
      yield* this.read(this.line, text, LIST);
      return;
    }
    const bare = withoutComments(text);
    const isComment = !isBlank && trimmed(bare) === "";
    if (isComment || isLength(bare)) {
      this.isBehindDump = wasBehindDump || bare === text;
      return;
    }
    yield* this.add({ line: this.line, lines: [], open: 0, hasComma: false }, bare);
  }

  // A line after those of a list.
  * goOn(text) {
    const { list } = this;
    this.list = null;
    if (trimmed(text) === "") {
      yield* this.endList(list);
    } else {
      yield* this.add(list, withoutComments(text));
    }
  }

  // What a list or a line is with one more line, if it doesn't go on in the next.
  * add(list, text) {
    list.lines.push(text);
    list.open = openBrackets(list.open, text);
    list.hasComma = trimmed(text) === "" ? list.hasComma : trimmed(text).endsWith(",");
    if (list.open > 0 || list.hasComma) {
      this.list = list;
      return;
    }
    const isList = list.lines.length > 1 || /[[{(]/.test(text);
    yield* this.read(list.line, list.lines.join("\n"), isList ? LIST : LINE, true);
  }

  * read(line, text, kind, mayBeHeading = false) {
    try {
      const isWord = text.length % 2 === 0 && HEX_DIGITS.test(text);
      const bytes = isWord ? yield* fromDigits(text) : yield* readPlain(text);
      this.put(line, text, kind, bytes, null);
    } catch (fault) {
      if (!(fault instanceof Fault)) {
        throw fault;
      }
      if (mayBeHeading && isHeading(text)) {
        this.isBehindDump = true;
      } else {
        this.put(line, text, kind, null, faultText(fault, text, line));
      }
    }
  }

  * finishDump() {
    const { dump } = this;
    this.dump = null;
    if (dump?.isPlain) {
      yield* this.read(dump.line, dump.text, LINE);
    } else if (dump) {
      this.isBehindDump = true;
      const { fault } = dump;
      this.put(dump.line, "", OF_DUMP, fault === null ? yield* fromDigits(dump.digits) : null, fault);
    }
  }

  // A list that a blank line or the end of the text ends.
  * endList({ line, lines, open }) {
    if (open > 0) {
      this.put(line, lines.join("\n"), LIST, null, OPEN);
    } else {
      yield* this.read(line, lines.join("\n"), LIST);
    }
  }

  * finish() {
    if (this.list) {
      yield* this.endList(this.list);
    } else {
      yield* this.finishDump();
    }
  }
}

// The pieces of a text: the numbers of their first and last line, their bytes or what is wrong, and what they were
// written as. With pauses.
export function* piecesOf(text) {
  const pieces = new Pieces();
  const pace = new Pace();
  const bare = text.startsWith("\ufeff") ? text.slice(1) : text;
  for (const line of text === "" ? [] : eachLine(bare.endsWith("\n") ? bare.slice(0, -1) : bare)) {
    yield* pieces.take(line);
    yield* pace.after(line.length);
  }
  yield* pieces.finish();
  return pieces.found;
}
