// What is shown for bytes: items in order (frames, packets, parameters), each with fields, and the error that ended
// them. The library decides which items there are, what they say, where their fields are, and why they end.

import {
  frameFields, openedFields, packetFields, paddingRun, parameterFields, parameterSummary,
} from "./fields.js";
import { FRAMES, REASONS } from "./formats.js";
import {
  ACK, OK, PACKET_FIXED_BIT, PACKET_RETRY, PACKET_UNSUPPORTED_VERSION, PADDING, PARAMS_ILLEGAL, PARAMS_MALFORMED,
  REASON_LIMIT, REASON_MALFORMED,
} from "./layout.js";
import { Words } from "./library.js";
import {
  allowedOf, closeCode, frameName, frameTone, isOfServers, kindOfType, packetName, packetTone, parameterOf,
  reasonText, typeName,
} from "./names.js";
import { lastWhere } from "./search.js";
import { count, frameSummary, packetSummary } from "./shown.js";

const KEPT_ITEMS = 4000;
const SHOWN_RANGES = 200;

// Ranges as text, greatest first.
export function rangesText(ranges, limit = SHOWN_RANGES) {
  const shown = ranges.slice(0, limit).map(([from, to]) => (from === to ? `${from}` : `${from}–${to}`));
  const more = ranges.length > limit ? ` and ${ranges.length - limit} more` : "";
  return shown.join(", ") + more;
}

class Reading {
  constructor(library, bytes, choices) {
    this.library = library;
    this.bytes = bytes;
    this.choices = choices;
    this.kept = new Map();
  }

  // How many items there are, including an invalid one at the end.
  get count() {
    return this.begins.length - 1 + (this.hasRest ? 1 : 0);
  }

  // Whether bytes are left that aren't an item.
  get hasRest() {
    return this.error !== null && this.rest < this.bytes.length;
  }

  get rest() {
    return this.begins[this.begins.length - 1];
  }

  get whole() {
    return this.begins.length - 1;
  }

  begin(index) {
    return this.begins[index];
  }

  end(index) {
    return index < this.whole ? this.begins[index + 1] : this.bytes.length;
  }

  // The item that the byte at |place| belongs to, or -1.
  indexAt(place) {
    if (place < 0 || place >= this.bytes.length || this.count === 0 || place >= this.end(this.count - 1)) {
      return -1;
    }
    return lastWhere(this.count, (index) => this.begin(index) <= place);
  }

  item(index) {
    let item = this.kept.get(index);
    if (!item) {
      if (this.kept.size >= KEPT_ITEMS) {
        this.kept.clear();
      }
      item = { index, begin: this.begin(index), end: this.end(index), broken: false, ...this.make(index) };
      this.kept.set(index, item);
    }
    return item;
  }

  // The field of an item at |place|, or -1.
  fieldAt(item, place) {
    return item.fields.findIndex((field) => field.begin <= place && place < field.end);
  }

  // The invalid item, if there is one: what remains after the valid ones.
  get bad() {
    return this.whole;
  }

  // For what isn't an item: its fields as far as they go, and what isn't read.
  broken(name, summary, { all, last }, end = this.bytes.length) {
    const { end: place } = last;
    const rest = { name: "not read", begin: place, end, value: count(end - place, "byte"), opaque: true };
    return { name, summary, tone: "error", broken: true, fields: place < end ? [...all, rest] : all };
  }
}

class FramesReading extends Reading {
  constructor(library, bytes, choices) {
    super(library, bytes, choices);
    const { begins, kinds, error } = library.readFrames(choices);
    this.begins = begins;
    this.kinds = kinds;
    this.unit = "frame";
    this.failure = error;
    this.error = error && this.describe(error);
  }

  kindAt(index) {
    return this.kinds[index];
  }

  // Whether an item is more than one PADDING frame.
  get hasRun() {
    return this.kinds.some((kind, index) => kind === PADDING && this.end(index) - this.begin(index) > 1);
  }

  // A frame's section says which values it may have; that of an ACK's ranges is their own.
  describe({ reason, note, type }) {
    const { kind, section } = FRAMES.get(Number(type)) ?? {};
    const ofFrame = kind === ACK ? "RFC 9000, section 19.3.1" : section;
    const isOfFrame = section !== undefined && [REASON_MALFORMED, REASON_LIMIT].includes(reason);
    return {
      place: this.readRest().fields.fault.begin, reason: reasonText(reason), type, code: closeCode(reason),
      section: isOfFrame ? ofFrame : REASONS.get(reason).section,
      note: note && `${note[0].toUpperCase()}${note.slice(1)}.`,
    };
  }

  readRest() {
    return frameFields(this.library, this.bytes, this.rest, this.failure.reason, this.choices);
  }

  make(index) {
    if (index === this.bad) {
      const { fields, type } = this.readRest();
      const name = type === null ? "not a frame" : `${typeName(type)} (invalid)`;
      return { kind: type === null ? null : kindOfType(type), ...this.broken(name, this.error.reason, fields) };
    }
    const begin = this.begin(index);
    const kind = this.kinds[index];
    const name = frameName(kind);
    const tone = frameTone(kind);
    if (kind === PADDING) {
      const { frames, fields } = paddingRun(this.bytes, begin, this.end(index));
      return { kind, name, tone, summary: count(frames, "frame"), fields };
    }
    const frame = this.library.frameAt(begin);
    const ranges = kind === ACK ? this.library.rangesAt(begin) : null;
    const { fields } = frameFields(this.library, this.bytes, begin);
    const summary = frameSummary(frame, ranges && rangesText(ranges, 20));
    return { kind, name, tone, summary, fields: fields.all, ranges };
  }

  // The shortest payload with the same meaning, or why there is none.
  canonical() {
    this.shortest ??= this.library.canonical({ quinn: this.choices.quinn });
    return this.shortest;
  }
}

class DatagramReading extends Reading {
  constructor(library, bytes, choices) {
    super(library, bytes, choices);
    this.unit = "packet";
    const { begins, kinds, refusal } = library.readPackets(choices);
    this.begins = begins;
    this.kinds = kinds;
    this.refusal = refusal;
    this.error = refusal && this.describe(refusal);
    // For each opened packet its mask, and the lines of its frames.
    this.openings = new Map();
  }

  // Opens a packet with the mask of its header, or closes it if that is null; |inner| are the lines of its frames.
  open(index, mask, inner) {
    this.openings.set(index, { mask, inner });
    this.kept.delete(index);
  }

  describe(refusal) {
    const isVersion = refusal.reason === PACKET_UNSUPPORTED_VERSION;
    return {
      place: this.fieldsOf(refusal).fault.begin, reason: reasonText(refusal.reason),
      version: isVersion ? refusal.version : null, code: null, section: this.sectionOf(refusal.reason),
    };
  }

  // What a receiver does after this, by the RFC.
  sectionOf(reason) {
    if (reason === PACKET_UNSUPPORTED_VERSION) {
      return "a server may answer with a Version Negotiation packet: RFC 9000, section 6";
    }
    if (reason === PACKET_RETRY) {
      return "the packet is dropped: RFC 9000, section 17.2.5.2";
    }
    const header = new DataView(this.bytes.slice(this.rest, this.rest + 5).buffer);
    if (reason === PACKET_FIXED_BIT && header.byteLength === 5 && header.getUint8(0) >= 0x80) {
      const version = header.getUint32(1);
      if (version === 0) {
        return "RFC 9000, section 17.2.1, leaves this bit unused; quinn-proto 0.11 rejects the packet";
      }
      if (!this.choices.versions.includes(version)) {
        return "RFC 8999, section 5.1, leaves this bit to the version; quinn-proto 0.11 rejects the packet";
      }
    }
    return "what is left of the datagram is dropped: RFC 9000, section 12.2";
  }

  // The fields of a packet, or of what isn't one.
  fieldsOf(packet) {
    return packetFields(this.library, this.bytes, packet, this.choices);
  }

  make(index) {
    if (index === this.bad) {
      return { kind: null, ...this.broken("not a packet", this.error.reason, this.fieldsOf(this.refusal)) };
    }
    const packet = this.packet(index);
    const { kind, version } = packet;
    const item = {
      kind, version, name: packetName(kind), tone: packetTone(kind), summary: packetSummary(packet),
      fields: this.fieldsOf(packet).all,
    };
    const opening = this.openings.get(index);
    return opening ? { ...item, ...this.opened(item, packet, opening) } : item;
  }

  // What differs in an opened packet: the fields of its header, and the frames of its payload.
  opened({ fields }, packet, { mask, inner }) {
    const header = mask && this.library.unprotect(packet, mask);
    if (!header) {
      return {};
    }
    const begin = packet.number + header.numberLength;
    return {
      fields: openedFields(fields, packet, header), inner: inner.map((line) => ({ ...line, begin, end: packet.end })),
    };
  }

  packet(index) {
    return this.library.packetAt(this.begin(index), this.choices);
  }
}

class ParamsReading extends Reading {
  constructor(library, bytes, choices) {
    super(library, bytes, choices);
    this.unit = "parameter";
    this.error = null;
    this.scan();
    const { reason, offset } = library.readParams(choices);
    if (reason !== OK) {
      this.refused = this.begins.indexOf(offset);
      if (reason === PARAMS_MALFORMED) {
        // Nothing after the entry was read.
        this.begins = this.begins.subarray(0, this.refused + 1);
      }
      this.error = this.describe(reason);
    }
  }

  get bad() {
    return this.refused ?? this.whole;
  }

  // Where all whole entries begin, then where the last of them ends.
  scan() {
    const begins = new Words();
    let end = 0;
    do {
      begins.push(end);
      end = this.library.entryEnd(end);
    } while (end !== null);
    this.begins = begins.all();
  }

  // For each entry its id and where its value begins and ends.
  * values() {
    for (let index = 0; index < this.whole; index += 1) {
      const [id, { end, number }] = this.library.entryFields(this.begin(index)).spans;
      yield [Number(id.number), [end - Number(number), end]];
    }
  }

  describe(reason) {
    this.reason = reason;
    const { fields, id } = parameterFields(this.library, this.bytes, this.begins[this.refused], this.choices);
    const fault = this.faultOf(fields, id);
    const isServers = this.isServers(id);
    return {
      place: fault.begin, reason: reasonText(reason), note: isServers ? "Only servers send it." : "",
      allowed: reason === PARAMS_ILLEGAL && fault.name === "Value" && !isServers ? allowedOf(id) : "",
      code: closeCode(reason), section: `RFC 9000, section ${isServers ? "18.2" : "7.4"}`,
    };
  }

  // Whether a server rejects an entry of its client's for its id.
  isServers(id) {
    return this.reason === PARAMS_ILLEGAL && this.choices.side === "server" && isOfServers(id);
  }

  // The field of the rejected entry that is at fault: the one at which reading it fails; else a number that another
  // parameter puts out of range; else the entry's id, which is a repeat or is forbidden.
  faultOf({ all, fault }, id) {
    const number = all.find((field) => field.name === "Value" && field.number !== undefined);
    const wrong = fault ?? (this.reason === PARAMS_MALFORMED ? null : number);
    return this.isServers(id) ? all[0] : wrong ?? all[0];
  }

  make(index) {
    const { fields, id, end } = parameterFields(this.library, this.bytes, this.begin(index), this.choices);
    const { name, tone } = { ...parameterOf(id), ...(id === null ? { name: "not a parameter" } : {}) };
    const summary = parameterSummary(fields, id);
    if (index !== this.bad) {
      fields.rest();
      return { kind: id, name, tone, summary, fields: fields.all };
    }
    fields.mark(this.faultOf(fields, id));
    const what = this.error.reason + (end === null ? "" : `: ${summary}`);
    return { kind: id, ...this.broken(name, what, fields, this.end(index)) };
  }
}

// Reads bytes by the choices.
export function readBytes(library, bytes, choices) {
  const readers = { frames: FramesReading, datagram: DatagramReading, params: ParamsReading };
  library.hold(bytes);
  return new readers[choices.mode](library, bytes, choices);
}
