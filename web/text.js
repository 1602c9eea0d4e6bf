// What quic-show prints of the same bytes.

import { toHex } from "./bytes.js";
import { paddingEnds } from "./fields.js";
import { PARAMETERS } from "./formats.js";
import { INITIAL, PADDING, SHORT } from "./layout.js";
import { frameName, packetWord, reasonText, typeName } from "./names.js";

const dashed = (bytes) => toHex(bytes) || "-";

// The line of an invalid frame.
function invalidLine({ reason, type }) {
  return `error ${reasonText(reason)}${type === null ? "" : ` in ${typeName(type)}`}`;
}

function* frameLines(reading) {
  for (let index = 0; index < reading.whole; index += 1) {
    const kind = reading.kindAt(index);
    let begin = reading.begin(index);
    const ends = kind === PADDING ? paddingEnds(reading.bytes, begin, reading.end(index)) : [reading.end(index)];
    for (const end of ends) {
      yield `${begin}..${end} ${frameName(kind)}`;
      begin = end;
    }
  }
  if (reading.error) {
    yield invalidLine(reading.failure);
  }
}

function packetLine(bytes, packet) {
  const id = (place, length) => dashed(bytes.subarray(place, place + length));
  let line = `${packet.begin}..${packet.end} ${packetWord(packet.kind)} dst ${id(packet.dcid, packet.dcidlen)}`;
  if (packet.kind !== SHORT) {
    const version = packet.version.toString(16).padStart(8, "0");
    line += ` src ${id(packet.scid, packet.scidlen)} version ${version}`;
  }
  if (packet.kind === INITIAL) {
    const begin = packet.token - packet.begin;
    line += ` token ${begin}..${begin + packet.tokenlen}`;
  }
  return line;
}

function* packetLines(reading) {
  for (let index = 0; index < reading.whole; index += 1) {
    yield packetLine(reading.bytes, reading.packet(index));
  }
  if (reading.error) {
    const { reason, version } = reading.error;
    yield `error ${reason}${version === null ? "" : ` ${version.toString(16)}`}`;
  }
}

// Transport parameters in the order in which they are printed.
const PRINTED = [...PARAMETERS.values()].filter(({ kind }) => kind !== "skipped").sort((a, b) => a.order - b.order);

function* parameterLines(reading) {
  if (reading.error) {
    yield `error ${reading.error.reason}`;
    return;
  }
  // Of a parameter that is repeated the last value counts.
  const values = new Map(reading.values());
  for (const { id, name, quinn_proto: own, kind, default: normal } of PRINTED.filter((one) => values.has(one.id))) {
    const [begin, end] = values.get(id);
    const number = kind === "number" ? reading.library.varintAt(begin).number : null;
    if (kind !== "number") {
      yield `${own ?? name} ${kind === "flag" ? "true" : dashed(reading.bytes.subarray(begin, end))}`;
    } else if (number !== normal) {
      yield `${name} ${number}`;
    }
  }
  yield "ok";
}

// The line of `quic-show canon`.
export function canonicalLine({ bytes, error }) {
  return error ? invalidLine(error) : toHex(bytes);
}

// The arguments of `quic-show` that print these lines.
export function command({ mode, strict, side, idLength }) {
  if (mode === "frames") {
    return strict ? "strict" : "frames";
  }
  return mode === "datagram" ? `datagram ${idLength}` : `params ${side}`;
}

// The lines that quic-show prints, at most |limit| of them, and whether there are more.
export function textOf(reading, limit) {
  const printers = { frame: frameLines, packet: packetLines, parameter: parameterLines };
  const lines = [];
  for (const line of printers[reading.unit](reading)) {
    if (lines.length === limit) {
      return { lines, isCut: true };
    }
    lines.push(line);
  }
  return { lines, isCut: false };
}
