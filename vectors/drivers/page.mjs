// A driver of the test vectors with what the page of web/ reads as quinn-proto does: its items and their fields.
//
// node --experimental-default-type=module page.mjs MODULE, which scripts/make/page-module makes
import fs from "node:fs";
import readline from "node:readline";

import { ACK, PADDING } from "../../web/layout.js";
import { Library } from "../../web/library.js";
import { parameterOf } from "../../web/names.js";
import { readBytes } from "../../web/reading.js";

const PACKETS = ["Initial", "0-RTT", "Handshake", "Retry", "1-RTT", "Version Negotiation"];
const RETRY = 3;
const VERSIONS = [1, 0x6b3343cf];
const FIN = 1n;
const SPIN = 0x20;
const RESERVED = { long: 0x0c, short: 0x18 };
// The page's names for fields that the tests name differently.
const NAMES = {
  destination_connection_id: "dcid", source_connection_id: "scid", supported_version: "supported_versions",
};
// Fields that only say where others end.
const LENGTHS = /^(type|first_byte|.*length|ack_range.*|first_ack_range|gap|packet_number_and_.*|retry_token_and_.*)$/;
const hex = (bytes) => Buffer.from(bytes).toString("hex");
const valid = (read) => `valid ${JSON.stringify(read)}`;
const invalid = (code, at, before) => `invalid ${code} ${JSON.stringify({ at, before })}`;

// A field's name as the tests have it.
function nameOf(field) {
  const name = field.name.toLowerCase().replace(/[ -]/g, "_");
  return NAMES[name] ?? name;
}

// The fields of an item, integers as decimal text and bytes as hexadecimal.
function fieldsOf(item, bytes) {
  const all = item.fields.map((field) => [nameOf(field), field]).filter(([name]) => !LENGTHS.test(name));
  return Object.fromEntries(all.map(([name, { number, begin, end }]) => (
    [name, number === undefined ? hex(bytes.subarray(begin, end)) : `${number}`])));
}

function frameOf(item, bytes) {
  const [, name, side] = /^(.*?)(?:_(BIDI|UNI))?$/.exec(item.name);
  if (item.kind === PADDING) {
    return { type: name, count: `${item.end - item.begin}` };
  }
  const out = { type: name, ...fieldsOf(item, bytes) };
  const type = item.fields[0].number;
  if (item.kind === ACK) {
    out.ranges = item.ranges.map(([low, high]) => [`${low}`, `${high}`]);
  } else if (name === "STREAM") {
    out.offset ??= "0";
    out.fin = `${type & FIN}`;
  } else if (side) {
    out.direction = side === "UNI" ? "unidirectional" : "bidirectional";
  } else if (name.endsWith("_CLOSE")) {
    out.type = "CONNECTION_CLOSE";
    out.layer = name === "APPLICATION_CLOSE" ? "application" : "transport";
  }
  return out;
}

// What was read for each whole item.
function itemsOf(reading, of) {
  return Array.from({ length: reading.whole }, (_, index) => of(reading.item(index)));
}

function payload(library, bytes, context) {
  if (context.without) {
    return "skip"; // the page always knows the frames of the ACK frequency extension
  }
  const reading = readBytes(library, bytes, { mode: "frames", quinn: true, strict: context.strict === "1" });
  const read = itemsOf(reading, (item) => frameOf(item, bytes));
  return reading.error ? invalid(reading.error.code.split(" ")[0], reading.rest, read) : valid(read);
}

function packetOf(reading, item, bytes) {
  const packet = reading.packet(item.index);
  const fields = fieldsOf(item, bytes);
  const out = { type: PACKETS[item.kind], dcid: "", ...fields, end: `${item.end}` };
  if (item.kind === 4) {
    out.spin = bytes[item.begin] & SPIN ? "1" : "0";
  }
  if (item.kind === 5) {
    delete out.supported_versions; // one field for each version
  }
  if (item.kind === 4 || item.kind < RETRY) {
    out.packet_number_at = `${packet.number}`;
  }
  return out;
}

function datagram(library, bytes, context) {
  const versions = context.versions === "1" ? VERSIONS.slice(0, 1) : VERSIONS;
  const idLength = Number(context.cid_len ?? 8);
  const choices = { mode: "datagram", quinn: true, idLength, versions, grease: context.grease === "1" };
  const reading = readBytes(library, bytes, choices);
  const read = itemsOf(reading, (item) => packetOf(reading, item, bytes));
  if (!reading.error) {
    return valid(read);
  }
  // A packet of an unknown version is still a packet: its ids are read.
  return reading.error.version === null ? invalid("DROP", reading.rest, read) : "valid";
}

// What an entry says, under the tests' names.
function entryOf({ name, kind, fields }, bytes) {
  const values = fields.filter((field) => !field.name.startsWith("Parameter "));
  if (kind === "flag") {
    return { [name]: "1" };
  }
  if (kind !== "preferred_address") {
    const [value] = values;
    return { [name]: value?.number === undefined ? hex(bytes.subarray(value?.begin, value?.end)) : `${value.number}` };
  }
  return Object.fromEntries(values.filter((field) => !LENGTHS.test(nameOf(field))).map((field) => {
    const digits = hex(bytes.subarray(field.begin, field.end));
    const isPort = field.name.endsWith("Port");
    return [`preferred_${nameOf(field).replace("dcid", "connection_id")}`, isPort ? `${parseInt(digits, 16)}` : digits];
  }));
}

function parameters(library, bytes, context) {
  const side = context.from === "client" ? "server" : "client";
  const reading = readBytes(library, bytes, { mode: "params", quinn: true, side });
  if (reading.error) {
    return "invalid TRANSPORT_PARAMETER_ERROR";
  }
  const known = itemsOf(reading, (item) => ({ ...item, ...parameterOf(item.kind) }));
  const entries = known.filter(({ kind }) => kind !== "other").map((item) => entryOf(item, bytes));
  return valid(Object.assign({}, ...entries));
}

function shortest(library, bytes) {
  library.hold(bytes);
  const { bytes: found } = library.canonical({ quinn: true });
  return found ? valid(hex(found)) : "invalid";
}

function unprotect(library, bytes, context) {
  const place = Number(context.place);
  library.hold(bytes);
  const mask = Buffer.from(context.mask, "hex");
  const packet = { begin: 0, end: bytes.length, number: place };
  const opened = bytes.length < place + 20 ? null : library.unprotect(packet, mask);
  if (!opened) {
    return "invalid DROP";
  }
  const { first, numberLength } = opened;
  if (first & (first & 0x80 ? RESERVED.long : RESERVED.short)) {
    return "invalid PROTOCOL_VIOLATION";
  }
  const number = opened.number.toString(16).padStart(2 * numberLength, "0");
  // The page shows the truncated number.
  return context.largest === "-" ? valid(`${hex([first])} ${number} ${opened.number}`) : "valid";
}

const CALLS = { payload, datagram, params: parameters, shortest, unprotect };

const [library] = await Library.load(fs.readFileSync(process.argv[2]), 1);
for await (const line of readline.createInterface({ input: process.stdin })) {
  const [form, words, digits] = line.split(" ");
  const context = words === "-" ? {} : Object.fromEntries(words.split(",").map((word) => word.split("=")));
  const bytes = new Uint8Array(Buffer.from(digits === "-" ? "" : digits, "hex"));
  process.stdout.write(`${CALLS[form] ? CALLS[form](library, bytes, context) : "skip"}\n`);
}
