// How numbers and bytes are written, and what is said of an item in a line.

import { toHex } from "./bytes.js";
import { SHORT, VERSION_NEGOTIATION } from "./layout.js";
import { errorName, kindOfType, typeName, versionName } from "./names.js";

const SHOWN_BYTES = 32;
const SHOWN_OF_TEXT = 200;

// A count with its unit.
export function count(amount, one) {
  return `${amount} ${one}${Number(amount) === 1 ? "" : "s"}`;
}

// Bytes as text in quotation marks if they are printable, else in hexadecimal.
export function bytesText(bytes, limit = SHOWN_BYTES) {
  if (bytes.length === 0) {
    return "empty";
  }
  const shown = bytes.subarray(0, limit);
  const rest = bytes.length > limit ? ` … ${bytes.length} bytes` : "";
  if (bytes.length > 1 && shown.every((byte) => byte >= 0x20 && byte < 0x7f)) {
    return `“${String.fromCharCode(...shown)}”${rest}`;
  }
  return toHex(shown) + rest;
}

// A number of a few bytes, most significant first.
const bigEndian = (bytes) => bytes.reduce((value, byte) => value * 256 + byte, 0);

const hex = (number, digits = 1) => `0x${number.toString(16).padStart(digits, "0")}`;

function showType(type) {
  const kind = kindOfType(type);
  const bit = (mask) => (type & mask ? 1 : 0);
  const bits = { 0x08: ` (OFF ${bit(4n)}, LEN ${bit(2n)}, FIN ${bit(1n)})`, 0x30: ` (LEN ${bit(1n)})` };
  return hex(type, 2) + (bits[kind] ?? "");
}

// The type of the frame that a CONNECTION_CLOSE names.
const showNamedType = (type) => (type === 0n ? "0x00 (none is named)" : `${showType(type)} (${typeName(type)})`);

function showCode(code) {
  const name = errorName(code);
  return name ? `${hex(code)} (${name})` : hex(code);
}

function showStream(id) {
  const side = id & 1n ? "server" : "client";
  return `${id} (${side}, ${id & 2n ? "unidirectional" : "bidirectional"})`;
}

function showVersion(bytes) {
  const version = bigEndian(bytes);
  const name = versionName(version);
  return `${hex(version, 8)}${name && ` (${name})`}`;
}

function showV6(bytes) {
  return Array.from({ length: 8 }, (_, group) => bigEndian(bytes.subarray(2 * group, 2 * group + 2)).toString(16))
    .join(":");
}

const showBytes = (number) => count(number, "byte");

// Numbers by their names and by their units in formats.js; the others are written as they are.
const BY_NUMBER = {
  Offset: String, Length: showBytes, "Parameter ID": (id) => hex(id, 2), "frame type": showType,
  "frame type, 0 if unknown": showNamedType, "error code": showCode, "stream id": showStream, bytes: showBytes,
  "application error code": (code) => `${code} (${hex(code)})`, microseconds: (delay) => `${delay} µs`,
  // The sender's ack_delay_exponent scales the field; if it isn't sent, it is 3.
  "2^ack_delay_exponent microseconds": (delay) => `${delay} (${delay * 8n} µs at exponent 3)`,
};

// Bytes in the same way, and by the kinds of fields.
const BY_BYTES = {
  "IPv4 Address": (bytes) => [...bytes].join("."), "IPv4 Port": (bytes) => `${bigEndian(bytes)}`,
  "IPv6 Address": showV6, "IPv6 Port": (bytes) => `${bigEndian(bytes)}`, uint32: showVersion,
  "UTF-8": (bytes) => bytesText(bytes, SHOWN_OF_TEXT),
};

// How a field of this row is written; |show| of the row comes first.
export function numberText({ show, name, unit }, number) {
  return (show ?? BY_NUMBER[name] ?? BY_NUMBER[unit] ?? String)(number);
}

export function dataText({ show, name, unit, kind }, bytes) {
  return (show ?? BY_BYTES[name] ?? BY_BYTES[unit] ?? BY_BYTES[kind] ?? bytesText)(bytes);
}

// A short description of a frame, from the library's values.
export function frameSummary(frame, ranges) {
  const [n0, n1, n2, n3] = frame.numbers;
  switch (frame.kind) {
    case 0x02: return ranges + (frame.flags & 2 ? `, ECN ${n2}/${n3}/${frame.numbers[4]}` : "");
    case 0x04: return `stream ${n0}, code ${n1}, final size ${n2}`;
    case 0x05: return `stream ${n0}, code ${n1}`;
    case 0x06: return `offset ${n1}, ${count(frame.datalen, "byte")}`;
    case 0x07: case 0x30: return count(frame.datalen, "byte");
    case 0x08: return `stream ${n0}, offset ${n1}, ${count(frame.datalen, "byte")}${frame.flags & 1 ? ", FIN" : ""}`;
    case 0x10: case 0x14: return count(n1, "byte");
    case 0x11: case 0x15: return `stream ${n0}, ${count(n1, "byte")}`;
    case 0x12: case 0x13: case 0x16: case 0x17: return count(n1, "stream");
    case 0x18: return `sequence ${n0}, retire prior to ${n1}`;
    case 0x19: return `sequence ${n0}`;
    case 0x1a: case 0x1b: return n0.toString(16).padStart(16, "0");
    case 0x1c: return `code ${showCode(n0)}`;
    case 0x1d: return `code ${n0}`;
    case 0xaf: return `sequence ${n0}, threshold ${n1}, delay ${n2} µs, reordering ${n3}`;
    default: return "";
  }
}

// The same of a packet.
export function packetSummary(packet) {
  const bytes = count(packet.end - packet.begin, "byte");
  if (packet.kind === SHORT || packet.kind === VERSION_NEGOTIATION) {
    return bytes;
  }
  return `${versionName(packet.version) || `version ${hex(packet.version)}`}, ${bytes}`;
}

// The bits of a first byte of a header of formats.js, of which the last ones are protected if |isOpen| isn't set.
export function firstText({ name: packet, first_byte: parts }, byte, isOpen) {
  const texts = [];
  let left = 8;
  for (const { name, bits } of parts) {
    if (name === "Reserved Bits" && !isOpen) {
      return `${texts.join(", ")}, low bits protected`;
    }
    left -= bits;
    const value = (byte >> left) & ((1 << bits) - 1);
    const digits = value.toString(2).padStart(bits, "0");
    const written = {
      "Long Packet Type": `${value} ${packet}`.trim(), "Packet Number Length": `${value + 1} (${digits})`,
    };
    texts.push(`${name} ${written[name] ?? digits}`);
  }
  return texts.join(", ");
}
