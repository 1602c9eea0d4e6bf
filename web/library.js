// The library's calls on bytes that the module holds: which items they are, and where the fields of each are.

import { FRAMES, REASONS } from "./formats.js";
import { ITEM, LONG_FORM, OK } from "./layout.js";
import { Module } from "./module.js";

// Flags of how bytes are read: as RFC 9000, types in their shortest encoding, the fixed bit may be clear.
const FLAGS = { rfc: 1, shortTypes: 2, greasedBit: 4 };
// What fields are asked of.
const FIELDS_OF = { frame: 0, packet: 1, entry: 2, value: 3 };
const NO_LIMIT = 0xffffffff;
// What bytes_hello returns for a message that isn't whole.
const PARTIAL = 3;

// The kinds of frames by their types.
const KINDS = Uint16Array.from({ length: Math.max(...FRAMES.keys()) + 1 }, (_, type) => FRAMES.get(type)?.kind ?? 0);

// For each subject the numbers of the reasons by their texts.
const REASONS_BY_TEXT = new Map();
for (const [number, { about, text }] of REASONS) {
  REASONS_BY_TEXT.set(`${about} ${text}`, number);
}

function reasonOf(about, text) {
  const reason = REASONS_BY_TEXT.get(`${about} ${text}`);
  if (reason === undefined) {
    throw new Error(`the library said ${text} of a ${about}`);
  }
  return reason;
}

// The flags of choices. As RFC 9000 reads, a clear fixed bit is shown, since RFC 9287 allows it.
function flagsOf({ quinn, strict, grease, idLength = 0 }) {
  const { rfc, shortTypes, greasedBit } = FLAGS;
  return (quinn ? 0 : rfc) + (strict ? shortTypes : 0) + (grease || !quinn ? greasedBit : 0) + 256 * idLength;
}

// A list of numbers below 2^32 that grows.
export class Words {
  constructor() {
    this.words = new Uint32Array(64);
    this.count = 0;
  }

  push(word) {
    if (this.count === this.words.length) {
      const more = new Uint32Array(2 * this.count);
      more.set(this.words);
      this.words = more;
    }
    this.words[this.count] = word;
    this.count += 1;
  }

  all() {
    return this.words.subarray(0, this.count);
  }
}

export class Library {
  // This many libraries, each with its own bytes, in one module, whose bytes are |module|. WebKit has memories that
  // grow without a copy for eight modules, and the worker needs one.
  static async load(module, count) {
    const started = await Module.start(await WebAssembly.compile(module));
    return Array.from({ length: count }, (_, number) => new Library(started, number));
  }

  constructor(module, number) {
    Object.assign(this, { module, number, length: 0 });
  }

  // The module's functions, which read the bytes of this library.
  get calls() {
    const { module, number } = this;
    if (module.chosen !== number) {
      module.calls.bytes_choose(number);
      module.chosen = number;
    }
    return module.calls;
  }

  // Puts bytes where the calls below read them.
  hold(bytes) {
    this.module.put(bytes);
    this.calls.bytes_hold();
    this.length = bytes.length;
  }

  // The numbers that a call returns.
  numbers(name, ...choices) {
    this.calls[name](...choices);
    return this.module.numbers();
  }

  // The offsets where frames begin, then where the last one ends; their kinds; and the error that ended them, or null.
  // Consecutive PADDING frames are one.
  readFrames(choices) {
    this.calls.bytes_frames(flagsOf(choices));
    const found = new Uint32Array(this.module.bytes());
    const [end, hasType, lower, upper] = found;
    const why = this.module.words;
    const count = (found.length - 4) / 2;
    const begins = new Uint32Array(count + 1);
    const kinds = new Uint32Array(count);
    for (let index = 0; index < count; index += 1) {
      begins[index] = found[2 * index + 4];
      kinds[index] = KINDS[found[2 * index + 5]];
    }
    begins[count] = end;
    const type = BigInt(lower) + (BigInt(upper) << 32n);
    return { count, begins, kinds, error: why === "" ? null : this.frameError(why, hasType, type) };
  }

  // The words have the reason, and in a second line what RFC 9000 forbids, if quinn-proto accepts it.
  frameError(words, hasType, type) {
    const [why, note = ""] = words.split("\n");
    return { reason: reasonOf("frame", why), note, type: hasType ? type : null };
  }

  // The frame that begins at |offset|: its kind, flags, how many bytes of data it has, and five numbers.
  frameAt(offset) {
    const [flags, datalen, ...numbers] = this.numbers("bytes_frame", offset);
    const kind = KINDS[this.varintAt(offset).number];
    return { kind, flags: Number(flags), datalen: Number(datalen), numbers };
  }

  // The ranges of the ACK at |offset| as pairs of BigInts, smallest and largest number, greatest range first.
  rangesAt(offset) {
    const numbers = this.numbers("bytes_ranges", offset);
    return Array.from({ length: numbers.length / 2 }, (_, index) => [numbers[2 * index], numbers[2 * index + 1]]);
  }

  // The shortest payload with the same meaning, or the payload's invalid frame.
  canonical(choices) {
    if (this.calls.bytes_shortest(flagsOf(choices))) {
      return { bytes: new Uint8Array(this.module.bytes()), error: null };
    }
    return { bytes: null, error: this.frameError(this.module.words, ...this.module.numbers()) };
  }

  // The transport parameters in the CRYPTO frames of payloads, one payload after the other: who sent them, and their
  // list, or nulls; and whether the message in which they may be isn't whole. The payloads are held then.
  helloIn(payloads) {
    this.hold(payloads);
    const answer = this.calls.bytes_hello();
    const sender = ["client", "server"][answer] ?? null;
    return { sender, list: sender && new Uint8Array(this.module.bytes()), isPartial: answer === PARTIAL };
  }

  // The variable-length integer at |offset|, which must be whole: where it ends, and how many bytes its shortest
  // encoding has.
  varintAt(offset) {
    const [number, end, shortest] = this.numbers("bytes_integer", offset);
    return { number, end: offset + Number(end), shortest: Number(shortest) };
  }

  // The fields of what begins at |offset|: why one can't be read, or ITEM; where those before it begin and end, and
  // their numbers, by their indices; where that one begins, and how many numbers in how many bytes of it can be read.
  fieldsAt(of, offset, { limit = NO_LIMIT, flags = 0, id = 0n } = {}) {
    const [end, inside, numbers, ...found] = this.numbers("bytes_fields", of, offset, limit, flags, id);
    const why = this.module.words;
    const spans = Array.from({ length: found.length / 3 }, (_, index) => {
      const [begin, last, number] = found.slice(3 * index, 3 * index + 3);
      return { begin: offset + Number(begin), end: offset + Number(last), number };
    });
    const reason = why === "" ? ITEM : REASONS_BY_TEXT.get(`header ${why}`) ?? OK;
    return { reason, spans, end: offset + Number(end), inside: Number(inside), numbers: Number(numbers) };
  }

  // Rules of the RFC, and that types are in their shortest encoding, are checked as |choices| say, if there are any.
  frameFields(offset, choices = { quinn: true }) {
    return this.fieldsAt(FIELDS_OF.frame, offset, { flags: flagsOf(choices) });
  }

  // The fixed bit isn't checked.
  packetFields(offset, choices) {
    this.speak(choices.versions);
    return this.fieldsAt(FIELDS_OF.packet, offset, { flags: flagsOf(choices) });
  }

  entryFields(offset) {
    return this.fieldsAt(FIELDS_OF.entry, offset);
  }

  // Where the entry that begins at |offset| ends, or null if it is cut off.
  entryEnd(offset) {
    const { reason, end } = this.entryFields(offset);
    return reason === ITEM ? end : null;
  }

  // The fields of a parameter's value between these offsets.
  valueFields(id, offset, limit, choices) {
    return this.fieldsAt(FIELDS_OF.value, offset, { limit, id, flags: flagsOf(choices) });
  }

  // Sets the versions whose long headers are read.
  speak(versions) {
    const { module } = this;
    if (module.spoken !== versions) {
      module.put(new Uint8Array(Uint32Array.from(versions).buffer));
      module.calls.bytes_versions();
      module.spoken = versions;
    }
  }

  // The packet that begins at |offset|: why there is none, or OK, and offsets in the datagram.
  packetAt(offset, choices) {
    this.speak(choices.versions);
    const numbers = [...this.numbers("bytes_header", offset, flagsOf(choices))].map(Number);
    const [kind, version, first, dcidlen, scidlen, token, tokenlen, headerEnd, end] = numbers;
    const why = this.module.words;
    const dcid = offset + (first & LONG_FORM ? 6 : 1);
    return {
      kind, version, reason: why === "" ? OK : reasonOf("header", why), begin: offset, end: offset + end, dcid, dcidlen,
      scid: dcid + dcidlen + 1, scidlen, token: offset + token, tokenlen, number: offset + headerEnd,
    };
  }

  // The offsets where packets begin, then where the last one ends; their kinds; and what isn't a packet, or null.
  readPackets(choices) {
    const begins = new Words();
    const kinds = new Words();
    let end = 0;
    let refusal = null;
    do {
      const packet = this.packetAt(end, choices);
      if (packet.reason === OK) {
        begins.push(end);
        kinds.push(packet.kind);
        ({ end } = packet);
      } else {
        refusal = packet;
      }
    } while (refusal === null && end < this.length);
    begins.push(end);
    return { begins: begins.all(), kinds: kinds.all(), refusal };
  }

  // Removes protection from a copy of a packet's header with a mask of five bytes. Returns the first byte without
  // protection, how many bytes the packet number has, and the truncated number; null if the packet is too short.
  unprotect({ begin, end, number: place }, mask) {
    this.module.put(mask);
    const [first, numberLength, number] = this.numbers("bytes_unprotect", begin, end, place - begin);
    return first === undefined ? null : { first: Number(first), numberLength: Number(numberLength), number };
  }

  // Whether a side accepts a list: OK, or why not, and where the entry begins that is rejected.
  readParams(choices) {
    if (this.calls.bytes_parameters(choices.side === "server" ? 1 : 0, flagsOf(choices))) {
      return { reason: OK, offset: 0 };
    }
    return { reason: reasonOf("list", this.module.words), offset: Number(this.module.numbers()[0]) };
  }
}
