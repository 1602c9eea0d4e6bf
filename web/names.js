// The names that the RFCs give to numbers, of formats.js where that has them, and how the page draws what they name.

import { ERROR_CODES, FRAMES, HEADERS, PARAMETERS, REASONS } from "./formats.js";
import { SHORT, VERSION_NEGOTIATION } from "./layout.js";

// For each kind of frame the tone that it is drawn in.
const FRAME_TONES = {
  0x00: "padding", 0x01: "signal", 0x02: "ack", 0x04: "stop", 0x05: "stop", 0x06: "crypto", 0x07: "id", 0x08: "data",
  0x10: "limit", 0x11: "limit", 0x12: "limit", 0x13: "limit", 0x14: "limit", 0x15: "limit", 0x16: "limit",
  0x17: "limit", 0x18: "id", 0x19: "id", 0x1a: "id", 0x1b: "id", 0x1c: "stop", 0x1d: "stop", 0x1e: "signal",
  0x1f: "ack", 0x30: "data", 0xaf: "ack",
};

// The name that tells the types of one frame apart, which is quinn-proto's: ACK_ECN.
export function frameName(type) {
  const { name, quinn_proto: own } = FRAMES.get(type);
  return own ?? name;
}

export function frameTone(kind) {
  return FRAME_TONES[kind];
}

// The kind of a type on the wire, or null.
export const kindOfType = (type) => FRAMES.get(Number(type))?.kind ?? null;

// The name of a type on the wire.
export function typeName(type) {
  return FRAMES.has(Number(type)) ? frameName(Number(type)) : `<unknown ${type.toString(16)}>`;
}

export const reasonText = (reason) => REASONS.get(reason).text;

// The code with which a connection is closed for a reason.
export function closeCode(reason) {
  const code = REASONS.get(reason).close_code;
  return `${errorName(BigInt(code))} (0x${code.toString(16).padStart(2, "0")})`;
}

// For each kind of packet: the word that quic-show prints, and its tone.
const PACKETS = [
  ["initial", "data"], ["0rtt", "limit"], ["handshake", "crypto"], ["retry", "stop"], ["short", "ack"],
  ["version-negotiation", "signal"],
];

export const packetWord = (kind) => PACKETS[kind][0];
export const packetTone = (kind) => PACKETS[kind][1];

// The header of a kind of packet. Its fields are the same in all versions that have it.
export const headerOf = (kind) => HEADERS.get(kind === SHORT || kind === VERSION_NEGOTIATION ? 0 : 1).get(kind);
export const packetName = (kind) => headerOf(kind).name;

export function versionName(version) {
  const known = { 0: "version negotiation", 1: "version 1", 0x6b3343cf: "version 2" };
  const isReserved = (version & 0x0f0f0f0f) === 0x0a0a0a0a;
  return known[version] ?? (isReserved ? "reserved" : version >>> 8 === 0xff0000 ? `draft ${version & 0xff}` : "");
}

const ALERTS = 0x100n;

// The name of a transport error code (RFC 9000, section 20.1), or nothing.
export function errorName(code) {
  const alerts = ERROR_CODES.get(Number(ALERTS));
  if (code >= ALERTS && code <= alerts.last) {
    return `${alerts.name}, TLS alert ${code - ALERTS}`;
  }
  return ERROR_CODES.get(Number(code))?.name ?? "";
}

// For each known transport parameter the tone that it is drawn in.
const PARAMETER_TONES = {
  0x00: "id", 0x01: "ack", 0x02: "id", 0x03: "data", 0x04: "limit", 0x05: "limit", 0x06: "limit", 0x07: "limit",
  0x08: "limit", 0x09: "limit", 0x0a: "ack", 0x0b: "ack", 0x0c: "stop", 0x0d: "id", 0x0e: "id", 0x0f: "id", 0x10: "id",
  0x20: "data", 0x2ab2: "signal", 0xff04de1b: "ack",
};

// Units as they are written after a number, if not in full.
const SHORT_UNITS = {
  milliseconds: "ms", "milliseconds, 0 for none": "ms", microseconds: "µs", "connection ids": "ids", "power of 2": "",
};

// The bounds of a parameter's value, or nothing.
export function allowedOf(id) {
  return PARAMETERS.get(Number(id))?.bound ?? "";
}

// Whether only servers send a parameter.
export function isOfServers(id) {
  return PARAMETERS.has(Number(id)) && !PARAMETERS.get(Number(id)).senders.includes("client");
}

export function parameterOf(id) {
  const tone = PARAMETER_TONES[id];
  if (tone) {
    const { name, kind, unit = "" } = PARAMETERS.get(Number(id));
    return { name, kind, unit: SHORT_UNITS[unit] ?? unit, tone };
  }
  const isReserved = id >= 27n && (id - 27n) % 31n === 0n;
  return { name: isReserved ? "reserved parameter" : "unknown parameter", kind: "other", unit: "", tone: "padding" };
}
