// The lines of a dump, joined. rust/ and python/ have the same reader.

import { DUMP, dumpLine, isFront, OF_NUMBERS, offsetsOf, PLAIN } from "./dump-line.js";
import { SWAPPED, UNKNOWN } from "./dump-order.js";
import { trimmed } from "./written.js";

// How many bytes a dump with lines of * may have, and the greatest number of bytes in a column.
const MOST = 1 << 20;
const UNIT = 8;

const SWAPPED_GROUPS = "the bytes of each group are swapped, as xxd -e prints them; use xxd without -e";
const MAY_BE_SWAPPED = "the bytes of each group may be swapped, as xxd -e prints them; use xxd -g1";
const UNCONFIRMED = "ambiguous: an offset and bytes, or only bytes; add the next line of the dump, or remove spaces";
const BASES = "ambiguous: with decimal offsets * stands for other rows; use od -v or xxd without -a";
const TORN = "a dump that begins below a line that can't be read, and not at offset 0";

// The relation of a line to the dump before it: the dump is whole with it, or without it.
export const GOES_ON = 0;
export const ENDS = 1;
export const ANOTHER = 2;

export class Dump {
  // Below a line that can't be read, a dump must begin at offset 0.
  constructor(number, text, first, isBelowFault) {
    this.line = number;
    this.text = text;
    this.first = first;
    this.offsets = first.offsets;
    this.parts = [first.digits];
    this.length = first.digits.length / 2;
    this.row = first.digits;
    this.order = first.order;
    // Whether a line went on from the first.
    this.isConfirmed = first.alone === DUMP;
    const isTorn = isBelowFault && this.isConfirmed && !isFront(first);
    this.refusal = first.refusal ?? (isTorn ? TORN : null);
    // Whether * was read after the last row, and whether it stands for other rows if offsets are decimal.
    this.repeats = false;
    this.hasTwoReadings = false;
    // The first line whose offset doesn't follow the lines before it.
    this.brokenAt = null;
  }

  // Whether its lines are plain hexadecimal, as far as they were read.
  get isPlain() {
    return !this.isConfirmed && this.first.alone === PLAIN;
  }

  // Adds the next line.
  take(number, text) {
    const line = trimmed(text);
    if (line === "") {
      return this.isPlain ? ANOTHER : ENDS;
    }
    if (line === "*") {
      this.repeats = true;
      this.isConfirmed = true;
      return GOES_ON;
    }
    const { form } = this.first;
    const row = dumpLine(text);
    if (row?.form === form) {
      return this.add(number, row);
    }
    if (row && isFront(row)) {
      return ANOTHER;
    }
    const end = form.end.test(line) ? offsetsOf(form, line) : null;
    if (end) {
      return this.close(number, end);
    }
    if (this.isConfirmed && form === OF_NUMBERS && text.startsWith(" ")) {
      // od prints numbers of a second kind below those of the first, without an offset.
      return GOES_ON;
    }
    if (!form.isClosed || !this.isConfirmed || this.refusal !== null) {
      return ANOTHER;
    }
    this.brokenAt ??= number;
    return GOES_ON;
  }

  add(number, row) {
    if (this.refusal !== null) {
      return !isFront(row) && this.goesOnUnread(row.offsets) ? GOES_ON : ANOTHER;
    }
    if (row.refusal === null && this.brokenAt === null && this.reach(row.offsets)) {
      this.put(row.digits, 1);
      this.order = Math.max(this.order, row.order);
      return row.isLast ? ENDS : GOES_ON;
    }
    if (isFront(row) || this.isPlain) {
      return ANOTHER;
    }
    this.brokenAt ??= number;
    return GOES_ON;
  }

  // The end's offset closes a dump.
  close(number, end) {
    if (this.refusal !== null) {
      return this.goesOnUnread(end) ? ENDS : ANOTHER;
    }
    if (this.brokenAt === null && !this.reach(end)) {
      if (this.isPlain) {
        return ANOTHER;
      }
      this.brokenAt = number;
    }
    return ENDS;
  }

  put(digits, times) {
    this.row = digits;
    this.parts.push(digits.repeat(times));
    this.length += times * digits.length / 2;
  }

  // Whether a line belongs to a dump that isn't read: if its first line may be plain hexadecimal, by the next offset.
  goesOnUnread(at) {
    const distance = at[0] - this.offsets[0];
    this.isConfirmed ||= distance > 0 && distance <= UNIT * this.first.columns;
    return this.isConfirmed;
  }

  // Whether the dump goes on at an offset, after rows are repeated for *.
  reach(at) {
    const gaps = this.offsets.map((from, base) => {
      const gap = from === null || at[base] === null ? -1 : at[base] - from - this.length;
      return this.fits(gap) ? gap : null;
    });
    const [gap, other] = gaps.filter((one) => one !== null);
    if (gap === undefined) {
      return false;
    }
    this.hasTwoReadings ||= other !== undefined && other !== gap;
    this.offsets = this.offsets.map((from, base) => (gaps[base] === null ? null : from));
    this.put(this.row, 2 * gap / this.row.length);
    this.repeats = false;
    this.isConfirmed = true;
    return true;
  }

  // Whether so many bytes may be missing: whole rows for *, which stands for one or more.
  fits(gap) {
    const isFilled = gap > 0 && gap % (this.row.length / 2) === 0 && gap <= MOST - this.length;
    return this.repeats ? isFilled : gap === 0;
  }

  // Why its bytes aren't known, or null.
  get fault() {
    const ofOrder = { [SWAPPED]: SWAPPED_GROUPS, [UNKNOWN]: MAY_BE_SWAPPED }[this.order];
    const refusal = this.refusal ?? ofOrder ?? (this.hasTwoReadings ? BASES : null);
    if (refusal !== null || this.brokenAt !== null) {
      return refusal ?? `the dump does not go on in line ${this.brokenAt}`;
    }
    const unended = this.repeats ? "the dump ends with *, not with an offset" : null;
    return this.isConfirmed ? unended : UNCONFIRMED;
  }

  get digits() {
    return this.parts.join("");
  }
}
