// The fields that are drawn: they are where the library says, and have the names of formats.js. A field that can't be
// read is drawn up to what is at fault in it. Only the numbers of an ACK's ranges are read one by one.

import { toHex } from "./bytes.js";
import { FRAMES, HEADERS, PREFERRED_ADDRESS } from "./formats.js";
import {
  INITIAL, ITEM, OK, PACKET_CUT, PACKET_FIXED_BIT, PACKET_MALFORMED_CID, PACKET_RETRY, REASON_LONG_TYPE, RETRY, SHORT,
  VERSION_NEGOTIATION,
} from "./layout.js";
import { headerOf, parameterOf } from "./names.js";
import { bytesText, count, dataText, firstText, numberText } from "./shown.js";

// How many ranges of an ACK, besides the first, are separate fields.
const FIELD_RANGES = 1000;
const LONGEST_ID = 20;
const TAG_LENGTH = 16;
const PROTECTED = "Packet Number and Packet Payload, protected";
const FIXED_BIT = 0x40;
const GREASED = "the fixed bit is 0, as RFC 9287 allows";

// Whether a field has a number of this index; if not, its bytes follow those numbers.
const hasNumber = ({ kind, length }, index) => ["number", "ranges"].includes(kind) || Boolean(length && index === 0);

// The name of a number of a field, or of its bytes.
function nameOf({ kind, name, length, numbers }, index) {
  if (kind === "ranges") {
    return numbers[index < 2 ? index : 2 + (index % 2)];
  }
  return length && index === 0 ? length : name;
}

class Fields {
  // |library| holds the bytes, of which those before |limit| may be drawn.
  constructor(library, bytes, limit = bytes.length) {
    Object.assign(this, { library, bytes, limit, all: [], fault: null });
  }

  get last() {
    return this.all[this.all.length - 1];
  }

  // These return where what is drawn ends.
  add(name, begin, end, value, more = {}) {
    this.all.push({ name, begin, end, value, ...more });
    return end;
  }

  number(row, index, begin) {
    const { number, end, shortest } = row.kind === "id"
      ? { number: BigInt(this.bytes[begin]), end: begin + 1, shortest: 1 } : this.library.varintAt(begin);
    const note = shortest < end - begin ? `${count(shortest, "byte")} would do` : "";
    const value = row.kind === "number" ? numberText(row, number) : `${number}`;
    return this.add(nameOf(row, index), begin, end, value, { number, note });
  }

  // This many numbers of a field, up to |end|.
  numbers(row, begin, end, numbers) {
    const shown = Math.min(numbers, 2 + 2 * FIELD_RANGES);
    let place = begin;
    for (let index = 0; index < shown; index += 1) {
      place = this.number(row, index, place);
    }
    return shown === numbers ? place
      : this.add(row.name, place, end, `${Math.floor((numbers - shown) / 2)} more`, { opaque: true });
  }

  data(row, begin, end) {
    const opaque = row.opaque ?? (row.kind === "rest" || (row.kind === "counted" && row.name !== "Token"));
    return this.add(row.name, begin, end, dataText(row, this.bytes.subarray(begin, end)), { opaque });
  }

  whole(row, { begin, end, number }) {
    const numbers = row.kind === "ranges" ? 2 + 2 * Number(number) : Number(hasNumber(row, 0));
    const place = this.numbers(row, begin, end, numbers);
    if (!hasNumber(row, numbers) && !["implied", "ordered", "supported"].includes(row.kind)) {
      this.data(row, place, end);
    }
  }

  // Marks a field as the one at fault; no other is then.
  mark(field) {
    this.all.forEach((one) => { one.fault = one === field; });
    this.fault = field;
  }

  // What there is of a field that begins at |end|, of which only |numbers| numbers in |inside| bytes can be read.
  stop(row, { end: begin, inside = 0, numbers = 0 }) {
    const place = this.numbers(row, begin, begin + inside, numbers);
    const left = this.limit - place;
    const wanted = this.wanted(row, numbers, place, left);
    if (left < wanted) {
      this.add(nameOf(row, numbers), place, this.limit, `${left} of ${count(wanted, "byte")}`);
    } else if (hasNumber(row, numbers)) {
      this.number(row, numbers, place);
    } else {
      this.data(row, place, wanted > 0 ? place + wanted : this.limit);
    }
    this.mark(this.last);
  }

  // How many bytes the number or the bytes at fault have.
  wanted({ kind, length, bytes }, index, place, left) {
    if (!hasNumber({ kind, length }, index)) {
      return length || kind === "token" ? this.last.number : bytes[0];
    }
    return kind === "id" || left === 0 ? 1 : 1 << (this.bytes[place] >> 6);
  }

  // The bytes that follow the last field, if there are any.
  rest() {
    if (this.last.end < this.limit) {
      this.data({ name: "not read", opaque: true }, this.last.end, this.limit);
    }
  }

  // The fields of these rows, as far as they were read.
  draw(rows, { reason, spans, ...reach }) {
    spans.slice(0, rows.length).forEach((span, index) => this.whole(rows[index], span));
    const row = rows[spans.length];
    if (reason !== ITEM && ["ordered", "supported"].includes(row?.kind)) {
      // A rule on a field before it.
      this.mark(this.all.find(({ name }) => name === row.name) ?? this.last);
    } else if (reason !== ITEM && row) {
      this.stop(row, reach);
    }
  }
}

// ---- Frames

// The fields of the frame that begins at |begin|, and its type, null if that is cut off. |reason| is why the frame is
// rejected by these choices, if it is.
export function frameFields(library, bytes, begin, reason = OK, choices = undefined) {
  const fields = new Fields(library, bytes);
  const read = library.frameFields(begin);
  const rows = FRAMES.get(Number(read.spans[0]?.number ?? 0)).fields;
  fields.draw(rows, read);
  const [type] = fields.all;
  if (reason === REASON_LONG_TYPE) {
    // What is cut off stays marked too.
    type.fault = true;
    fields.fault = type;
  } else if (reason !== OK && choices) {
    const { spans, numbers } = library.frameFields(begin, choices);
    if (!fields.fault || spans.length < read.spans.length) {
      // A rule: of the field that it limits the number or the length.
      const name = nameOf(rows[Math.min(spans.length, rows.length - 1)], numbers);
      fields.mark(fields.all.find((field) => field.name === name) ?? fields.last);
    }
  }
  return { fields, type: type.number ?? null };
}

// Where each frame of a run of PADDING ends.
export function* paddingEnds(bytes, begin, end) {
  for (let place = begin; place < end;) {
    place += 1 << (bytes[place] >> 6);
    yield place;
  }
}

// A run of PADDING: its one field, and how many frames it is.
export function paddingRun(bytes, begin, end) {
  let frames = 0;
  for (const place of paddingEnds(bytes, begin, end)) {
    frames += place > 0 ? 1 : 0;
  }
  const value = frames === 1 ? "0x00" : `0x00, ${frames} times`;
  const note = frames < end - begin ? "in more bytes than one" : "";
  return { frames, fields: [{ name: "Type", begin, end, value, note }] };
}

// ---- Packets whose headers are still protected

// The header that a first byte and a version begin. Without a version that is read its type has no name.
function headerAt(first, version, { versions }) {
  if (first < 0x80 || version === 0) {
    return headerOf(first < 0x80 ? SHORT : VERSION_NEGOTIATION);
  }
  if (!versions.includes(version)) {
    return { ...headerOf(INITIAL), name: "" };
  }
  const headers = [...(HEADERS.get(version) ?? HEADERS.get(1)).values()];
  return headers.find(({ first_byte: bits }) => bits[2].value === ((first >> 4) & 3));
}

// What was read up to the first id that is too long, if there is one: in versions that aren't read, the library leaves
// it to its caller to reject that.
function upToLongId(read, bytes) {
  const begins = [...read.spans.map(({ begin }) => begin), read.end];
  const index = begins.findIndex((begin, at) => (at === 2 || at === 3) && bytes[begin] > LONGEST_ID);
  return index < 0 ? read : { ...read, spans: read.spans.slice(0, index), end: begins[index], inside: 0, numbers: 0 };
}

// What follows the header of a whole packet. It has as many bytes as the Length says, or all that are left.
function behindHeader(fields, { after: [name, tag] }) {
  const { end: begin, number } = fields.last;
  const end = fields.last.name === "Length" ? begin + Number(number) : fields.limit;
  if (name === headerOf(VERSION_NEGOTIATION).after[0]) {
    for (let place = begin; place < end; place += 4) {
      const bytes = fields.bytes.subarray(place, Math.min(place + 4, end));
      const value = bytes.length < 4 ? `${bytes.length} of 4 bytes` : dataText({ kind: "uint32" }, bytes);
      fields.add(name, place, place + bytes.length, value);
    }
  } else if (name === headerOf(RETRY).after[0]) {
    const names = end - begin < TAG_LENGTH ? [`${name} and ${tag}`] : [name, tag];
    const place = fields.data({ name: names[0], opaque: true }, begin, names[1] ? end - TAG_LENGTH : end);
    names.slice(1).forEach(() => fields.data({ name: tag, opaque: true }, place, end));
  } else {
    fields.data({ name: PROTECTED, opaque: true }, begin, end);
  }
}

// The fields of what begins at |begin|, a packet or what is rejected for this reason. The fixed bit isn't checked.
export function packetFields(library, bytes, { begin, reason }, choices) {
  const fields = new Fields(library, bytes);
  const found = library.packetFields(begin, choices);
  const read = reason === PACKET_MALFORMED_CID ? upToLongId(found, bytes) : found;
  const header = headerAt(bytes[begin], Number(found.spans[1]?.number ?? -1n), choices);
  const [first, ...others] = header.fields;
  const rows = [{ ...first, name: "First Byte", show: ([byte]) => firstText(header, byte, false) },
    ...others.map((row) => (row.kind === "short_id" ? { ...row, bytes: [choices.idLength] } : row))];
  fields.draw(rows, read);
  const { last, limit } = fields;
  const isCut = read.reason === ITEM && last.name === "Length" && last.number > limit - last.end;
  if (reason === PACKET_CUT || isCut) {
    // The Length says how many bytes there should be. What is wrong with the first byte comes before that.
    fields.stop({ name: PROTECTED, bytes: [fields.last.number] }, { end: fields.last.end });
  } else if (read.reason === ITEM) {
    behindHeader(fields, header);
  }
  if (reason === PACKET_FIXED_BIT) {
    fields.mark(fields.all[0]);
  } else if (reason === PACKET_RETRY) {
    fields.mark(fields.last);
  } else if ((bytes[begin] & FIXED_BIT) === 0 && header.name !== "Version Negotiation") {
    fields.all[0].note = GREASED;
  }
  return fields;
}

// The fields of a packet whose header protection was removed: |header| has the first byte and the packet number.
export function openedFields(fields, { begin, end, number, kind }, { first, numberLength, number: truncated }) {
  const behind = number + numberLength;
  const value = firstText(headerOf(kind), first, true);
  return [
    { ...fields[0], value, note: `0x${first.toString(16)}, unprotected` },
    ...fields.slice(1).filter((field) => field.end <= number && field.begin > begin),
    { name: "Packet Number", begin: number, end: behind, value: `${truncated}`, note: "truncated" },
    { name: "Packet Payload, protected", begin: behind, end, value: count(end - behind, "byte"), opaque: true },
  ];
}

// ---- Transport parameters

const ENTRY = [
  { kind: "number", name: "Parameter ID" },
  { kind: "counted", name: "Parameter Value", length: "Parameter Length" },
];

// A number with its unit, if it has one.
function withUnit(number, unit) {
  const one = unit.endsWith("ms") || !unit.endsWith("s") ? unit : unit.slice(0, -1);
  return `${number} ${number === 1n ? one : unit}`.trim();
}

// The value of a parameter, which is all that may be drawn.
function valueFields(fields, id, begin, choices) {
  const { kind, unit } = parameterOf(id);
  const read = fields.library.valueFields(id, begin, fields.limit, choices);
  const number = { kind, name: "Value", show: (value) => withUnit(value, unit) };
  const rows = { number: [number], preferred_address: PREFERRED_ADDRESS }[kind] ?? [];
  fields.draw(rows, read);
  const place = rows.length > 0 ? fields.last.end : begin;
  if (rows.length > 0 && !fields.fault && read.reason !== ITEM) {
    const name = kind === "number" ? "after the value" : "after the address";
    fields.data({ name }, place, fields.limit);
  } else if (rows.length === 0 && (kind !== "flag" || begin < fields.limit)) {
    const show = (bytes) => (kind === "other" || bytes.length === 0 ? bytesText(bytes) : toHex(bytes));
    fields.data({ name: "Value", opaque: kind === "other", show }, begin, fields.limit);
  }
  if (read.reason !== ITEM) {
    fields.mark(fields.last);
  }
}

// The fields of the entry that begins at |begin|, its id, null if that is cut off, and where it ends, null if it is cut
// off.
export function parameterFields(library, bytes, begin, choices) {
  const read = library.entryFields(begin);
  const [id, value] = read.spans;
  const fields = new Fields(library, bytes, value?.end);
  fields.draw(ENTRY, value ? { ...read, spans: [id], reason: ITEM } : read);
  if (value) {
    valueFields(fields, id.number, fields.number(ENTRY[1], 0, value.begin), choices);
  }
  return { fields, id: id?.number ?? null, end: value?.end ?? null };
}

// A short description of an entry.
export function parameterSummary({ all }, id) {
  const { kind } = parameterOf(id);
  const by = (name) => all.find((field) => field.name === name)?.value;
  if (kind === "preferred_address") {
    return [by("IPv4 Address"), by("IPv6 Address")].filter(Boolean).join(", ");
  }
  return kind === "flag" ? "present" : by("Value") ?? "";
}
