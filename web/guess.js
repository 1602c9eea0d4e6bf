// What bytes most likely are, if the user leaves that to the page: a payload, a datagram, a list of transport
// parameters or a capture. The library reads them in each way; what fits earns points, about one for each bit that had
// to be right.

import { toHex } from "./bytes.js";
import { parameterFields } from "./fields.js";
import { FRAMES, PARAMETERS, VERSIONS } from "./formats.js";
import { LONG_FORM, PADDING } from "./layout.js";
import { readBytes } from "./reading.js";
import { answerOf } from "./slices.js";

// The mode in which the page guesses, and what it may guess besides the other modes.
export const GUESS = "auto";
export const CAPTURE = "capture";
export const GUESSES = { frames: "a payload", datagram: "a datagram", params: "transport parameters" };

// What captures begin with, each with its name: pcap in both byte orders, with microseconds or nanoseconds, and version
// 2.4; pcapng, whose byte order comes after a length.
const CAPTURE_FRONTS = [
  [/^a1b2(c3d4|3c4d)00020004/, "pcap"], [/^(d4c3|4d3c)b2a102000400/, "pcap"],
  [/^0a0d0d0a.{8}(1a2b3c4d|4d3c2b1a)/, "pcapng"],
];
const MOST_OF_CAPTURE = 12;
// A datagram has fewer bytes. How many inputs are read, and how many items of each.
const MOST_BYTES_GUESSED = 65536;
const MOST_INPUTS = 64;
const MOST_ITEMS = 64;
// What fits, in points.
const POINTS = {
  // Of a payload: a frame, PADDING, the end where a frame ends, which always fits for one without a length; a message
  // with transport parameters in CRYPTO frames; what only quinn-proto accepts; and all bytes before an error.
  frame: 3, padding: 1, end: 8, hello: 30, quinn: -4, read: 6,
  // Of a datagram: a long header of a known version, that it is whole, one of a reserved version, ids that are short
  // enough; a version negotiation, one without ids or versions; one that is cut off; a short header, one with a clear
  // fixed bit (RFC 9287), and one that is too short; and that what follows looks encrypted.
  version: 20, whole: 4, reserved: 8, ids: 5, negotiation: 16, empty: 5, cut: 6, unfixed: 1, short: 6, greased: 0,
  tooShort: 2, random: 6,
  // Of a list: an entry that is known, one without a value, one of wrong form, one that isn't known, and one that comes
  // again; the end where an entry ends, and that of a short list if one is of wrong form; that a side accepts it; that
  // it is short, with one entry; and all bytes before an entry that is cut off.
  entry: 4, bare: 1, malformed: -1, unknown: -3, again: -4, form: 3, accepted: 2, alone: -4, entries: 4,
};
// Frames before an error count less, since random bytes often begin with one.
const BEFORE_ERROR = 0.3;
// Lists of fewer bytes are short, whether one of their entries is of wrong form or they have but one.
const [SHORT_FORM, SHORT_ALONE] = [8, 6];
// A packet with a short header has a number, its tag, and as many bytes as a sample needs (RFC 9001, section 5.4.2).
const LEAST_SHORT = 21;
const MOST_ID = 20;
const FLAG = "flag";
// Of so many random bytes, how many are different at least, and which part has its first bit set.
const MOST_RANDOM = 64;
const [LEAST_DIFFERENT, LEAST_SET] = [0.8, 0.25];

// The format of a capture in bytes, or null.
export function captureFormat(bytes) {
  const front = toHex(bytes.subarray(0, MOST_OF_CAPTURE));
  return CAPTURE_FRONTS.find(([magic]) => magic.test(front))?.[1] ?? null;
}

// Whether bytes look random, as what is encrypted does.
function isRandom(bytes) {
  const shown = bytes.subarray(0, MOST_RANDOM);
  const expected = 256 * (1 - (255 / 256) ** shown.length);
  const isSet = shown.filter((byte) => byte >= 0x80).length / shown.length;
  return new Set(shown).size >= LEAST_DIFFERENT * expected && isSet >= LEAST_SET && isSet <= 1 - LEAST_SET;
}

function pointsOfFrames(library, bytes) {
  const byRfc = readBytes(library, bytes, { mode: "frames" });
  const reading = byRfc.error ? readBytes(library, bytes, { mode: "frames", quinn: true }) : byRfc;
  const count = Math.min(reading.whole, MOST_ITEMS);
  let points = 0;
  for (let index = 0; index < count; index += 1) {
    points += reading.kindAt(index) === PADDING ? POINTS.padding : POINTS.frame;
  }
  points += library.helloIn(bytes).list ? POINTS.hello : 0;
  if (reading.error) {
    return BEFORE_ERROR * points + (POINTS.read * reading.error.place) / bytes.length;
  }
  const last = reading.whole > 0 ? FRAMES.get(bytes[reading.begin(reading.whole - 1)]) : undefined;
  points += last?.fields.at(-1)?.kind === "rest" ? 0 : POINTS.end;
  return reading === byRfc ? points : points + POINTS.quinn;
}

// Whether both ids of a long header may be that long.
function hasIds(bytes) {
  const [first, second] = [bytes[5], bytes[6 + bytes[5]]];
  return first <= MOST_ID && second <= MOST_ID;
}

function pointsOfLong(library, bytes, choices) {
  if (bytes.length < 5) {
    return bytes[0] >= 0xc0 ? POINTS.cut : POINTS.unfixed;
  }
  const version = new DataView(bytes.buffer, bytes.byteOffset).getUint32(1);
  const reading = readBytes(library, bytes, { ...choices, mode: "datagram", quinn: false });
  if (VERSIONS.includes(version)) {
    return POINTS.version + (reading.error ? 0 : POINTS.whole);
  }
  if (version === 0) {
    return reading.whole > 0 && bytes[5] > 0 ? POINTS.negotiation : POINTS.empty;
  }
  const isReserved = (version & 0x0f0f0f0f) === 0x0a0a0a0a;
  return (isReserved ? POINTS.reserved : 0) + (hasIds(bytes) ? POINTS.ids : 1);
}

function pointsOfDatagram(library, bytes, choices) {
  if (bytes[0] & LONG_FORM) {
    return pointsOfLong(library, bytes, choices);
  }
  const isFixed = bytes[0] >= 0x40;
  if (bytes.length < LEAST_SHORT) {
    return isFixed ? POINTS.tooShort : 0;
  }
  return (isFixed ? POINTS.short : POINTS.greased) + (isRandom(bytes.subarray(1)) ? POINTS.random : 0);
}

// The points of an entry of a list, and whether it is malformed.
function pointsOfEntry({ fields, id }, seen) {
  if (seen.has(id)) {
    return [POINTS.again, false];
  }
  const known = PARAMETERS.get(Number(id));
  if (known === undefined) {
    // Those of this form are reserved (RFC 9000, section 18.1).
    return [id % 31n === 27n ? 0 : POINTS.unknown, false];
  }
  if (fields.fault) {
    return [POINTS.malformed, true];
  }
  const hasValue = known.kind === FLAG || fields.all.slice(2).some(({ begin, end }) => begin < end);
  return [hasValue ? POINTS.entry : POINTS.bare, false];
}

function pointsOfParameters(library, bytes) {
  library.hold(bytes);
  let [begin, points, count, isMalformed] = [0, 0, 0, false];
  const seen = new Set();
  while (begin < bytes.length && count < MOST_ITEMS) {
    const entry = parameterFields(library, bytes, begin, { quinn: false });
    if (entry.end === null) {
      return points + POINTS.unknown + (POINTS.entries * begin) / bytes.length;
    }
    const [more, isWrong] = pointsOfEntry(entry, seen);
    points += more;
    isMalformed ||= isWrong;
    seen.add(entry.id);
    count += 1;
    begin = entry.end;
  }
  if (begin === bytes.length) {
    points += isMalformed && bytes.length < SHORT_FORM ? POINTS.form : POINTS.end;
  }
  points += sideOf(library, bytes) ? POINTS.accepted : 0;
  return count === 1 && bytes.length < SHORT_ALONE ? points + POINTS.alone : points;
}

// The side that accepts a list, of both the one that was chosen; or null.
function sideOf(library, bytes, chosen = "client") {
  const sides = chosen === "client" ? ["client", "server"] : ["server", "client"];
  return sides.find((side) => !readBytes(library, bytes, { mode: "params", side }).error) ?? null;
}

// The points of each mode for bytes.
export function pointsOf(library, bytes, choices) {
  if (bytes.length === 0 || bytes.length >= MOST_BYTES_GUESSED) {
    return { frames: 0, datagram: 0, params: 0 };
  }
  return {
    frames: pointsOfFrames(library, bytes), datagram: pointsOfDatagram(library, bytes, choices),
    params: pointsOfParameters(library, bytes),
  };
}

// What inputs most likely are: the mode; for transport parameters the side that reads them; of a capture its format.
// Of modes that fit equally the first one is taken, a payload. With pauses.
export function* guessing(library, inputs, choices) {
  const all = inputs.map(({ bytes }) => bytes).filter((bytes) => bytes?.length > 0).slice(0, MOST_INPUTS);
  const format = inputs.length === 1 && all.length === 1 ? captureFormat(all[0]) : null;
  if (format) {
    return { mode: CAPTURE, format };
  }
  const sums = { frames: 0, datagram: 0, params: 0 };
  for (const bytes of all) {
    for (const [mode, points] of Object.entries(pointsOf(library, bytes, choices))) {
      sums[mode] += points;
    }
    yield;
  }
  const [mode] = Object.entries(sums).reduce((best, one) => (one[1] > best[1] ? one : best));
  const side = mode === "params" ? sideOf(library, all[0], choices.side) ?? choices.side : choices.side;
  return { mode, side };
}

// The same without pauses.
export const guessOf = (library, inputs, choices) => answerOf(guessing(library, inputs, choices));
