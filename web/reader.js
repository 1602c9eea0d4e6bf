// Reads a capture with the module, in pieces: in a worker, or wherever there is time. What takes long is done in steps,
// between which messages have their turn.

import { Module, valueOfJson } from "./module.js";

const PIECE = 1 << 20;
const GZIP = [0x1f, 0x8b];
// How many compressed bytes are inflated at a time: a thousand times as many may come out.
const PACKED = 1 << 14;
const NEW_LINE = 10;
// For how many milliseconds steps are taken until messages have their turn; how many datagrams a step takes, and how
// many connections one at the end.
const TURN = 40;
const [DATAGRAMS, CONNECTIONS] = [32, 256];
// What a step returns.
const [FAILED, , MORE] = [0, 1, 2];
// With how many bytes of memory the module reads no further. It has 1 GB, and needs some to tell what it has read.
const MOST_MEMORY = 768 << 20;
const FULL = "what comes after that needs more memory than the page has";
// How many bytes are made for a file at most: they are in memory until it is saved.
const MOST_SAVED = 1 << 30;
const DAMAGED = "the rest of the file, which gzip compressed, can’t be read";
// What a capture is read for: its table, the packets of one record, the objects that quic-wire prints, the traces that
// it writes of all connections, and that of one.
const [TABLE, RECORD, OBJECTS, TRACES, TRACE] = [0, 1, 2, 3, 4];
const SIDES = ["client", "server"];
// How many findings the page gets with the summary. Those of a packet come with that.
const MOST_FINDINGS = 500;

// Why reading has ended without a fault: something else is read now.
export class Cancelled extends Error {}

// When messages have their turn.
class Turns {
  begun = performance.now();

  // Whether steps were taken for long enough.
  get isOver() {
    return performance.now() - this.begun >= TURN;
  }

  // Lets the messages that have come have their turn, if that is due.
  async next() {
    if (!this.isOver) {
      return;
    }
    await new Promise((done) => {
      const { port1, port2 } = new MessageChannel();
      port1.onmessage = () => {
        port1.close();
        done();
      };
      port2.postMessage(null);
    });
    this.begun = performance.now();
  }
}

// The pieces of a file, each with how much of the file was read by then.
async function* filePieces(file) {
  for (let at = 0; at < file.size; at += PIECE) {
    const bytes = new Uint8Array(await file.slice(at, Math.min(at + PIECE, file.size)).arrayBuffer());
    yield [bytes, Math.min(at + PIECE, file.size)];
  }
}

// The same, few bytes at a time.
async function* smallPieces(file) {
  for await (const [bytes, read] of filePieces(file)) {
    for (let at = 0; at < bytes.length; at += PACKED) {
      const part = bytes.subarray(at, at + PACKED);
      yield [part, read - bytes.length + at + part.length];
    }
  }
}

// The lines of a key log in parts, each of which ends with a line unless one is longer than a piece.
async function* linesOf(file) {
  let rest = [];
  for await (const [bytes] of filePieces(file)) {
    const end = bytes.lastIndexOf(NEW_LINE) + 1;
    if (end > 0 || rest.length > 1) {
      yield joined([...rest, bytes.subarray(0, end)]);
      rest = [];
    }
    rest.push(bytes.subarray(end));
  }
  yield joined(rest);
}

function joined(parts) {
  const all = new Uint8Array(parts.reduce((sum, part) => sum + part.length, 0));
  let at = 0;
  for (const part of parts) {
    all.set(part, at);
    at += part.length;
  }
  return all;
}

const isOfKind = (line, kind) => line.startsWith(`{"kind":"${kind}"`);

// Whether a packet's datagram was kept, with the payloads of all that were opened in it.
const isKept = ({ datagram, packets }) => (
  datagram !== undefined && packets.every(({ opened, payload }) => !opened || payload !== undefined));

// Adds up how many bytes are made for a file.
function savedSize() {
  let size = 0;
  return (bytes) => {
    size += bytes.byteLength;
    if (size > MOST_SAVED) {
      throw new Error("it has more than 1 GB; the program quic-wire writes it");
    }
    return bytes;
  };
}

// Adds pieces of traces to the parts of each connection's.
function addPieces(traces, buffer) {
  const view = new DataView(buffer);
  for (let at = 0; at < buffer.byteLength;) {
    const [connection, length] = [view.getUint32(at, true), view.getUint32(at + 4, true)];
    const parts = traces.get(connection) ?? [];
    parts.push(new Uint8Array(buffer, at + 8, length));
    traces.set(connection, parts);
    at += 8 + length;
  }
}

async function isCompressed(file) {
  const front = new Uint8Array(await file.slice(0, GZIP.length).arrayBuffer());
  return GZIP.every((byte, at) => front[at] === byte);
}

export class Reader {
  // |compiled| is the module; |file| and |keyLogs| have the calls of Blobs.
  constructor(compiled, file, keyLogs) {
    Object.assign(this, { compiled, file, keyLogs });
    this.module = null;
    // Why the file could only be read in part, or nothing; and the same of what was last made for a file.
    this.fault = "";
    this.faultOfSaved = "";
    // For each finding its row, once there is a summary.
    this.rowsOfFindings = [];
  }

  // Starts a module of its own, so that what the last one took is free. |number| is a record or a connection; |name| is
  // what traces call the capture. |after| is called between the parts of key logs, with 0; no further ones are read if
  // it returns true.
  async begin(purpose, after, number = 0, name = "") {
    const module = await Module.start(this.compiled);
    const turns = new Turns();
    module.putText(name);
    module.calls.capture_begin(purpose, number);
    for (const log of this.keyLogs) {
      for await (const lines of linesOf(log)) {
        module.put(lines);
        module.calls.capture_add_keylog();
        if (after(0)) {
          return module;
        }
        await turns.next();
      }
    }
    return module;
  }

  // Gives the pieces of the file to a module, up to one that can't be read. |after| is called every few milliseconds
  // and after each piece, with how many bytes of the file were read; reading ends if it returns true. Returns why the
  // file can't be read on.
  async feed(module, after) {
    const { calls } = module;
    const isPacked = await isCompressed(this.file);
    const put = isPacked ? calls.capture_put_packed : calls.capture_put;
    const turns = new Turns();
    let before = 0;
    for await (const [bytes, read] of isPacked ? smallPieces(this.file) : filePieces(this.file)) {
      module.put(bytes);
      const isDamaged = put() === 0;
      let left = MORE;
      while (left === MORE) {
        left = calls.capture_step(DATAGRAMS);
        const fault = left === FAILED ? module.words : module.size > MOST_MEMORY ? FULL : "";
        const isTold = left !== MORE || turns.isOver;
        if (fault || (isTold && after(left === MORE ? before : read))) {
          return fault;
        }
        await turns.next();
      }
      if (isDamaged) {
        return DAMAGED;
      }
      before = read;
    }
    return isPacked && calls.capture_end_packed() === 0 ? DAMAGED : "";
  }

  // Ends a capture. |after| is called every few milliseconds, with the size of the file.
  async finish(module, after) {
    const turns = new Turns();
    while (module.calls.capture_finish_some(CONNECTIONS)) {
      if (turns.isOver) {
        after(this.file.size);
        await turns.next();
      }
    }
  }

  // Reads the capture for its table.
  async read(after) {
    this.module = await this.begin(TABLE, after);
    this.fault = await this.feed(this.module, after);
    await this.finish(this.module, after);
    // Lines become objects once they are shown, since there may be many.
    const lines = this.lines("capture_lines");
    this.capture = valueOfJson(lines.find((line) => isOfKind(line, "capture")));
    this.connections = lines.filter((line) => isOfKind(line, "connection"));
    this.findings = this.lines("capture_check_lines").filter((line) => isOfKind(line, "finding"));
  }

  lines(name) {
    this.module.calls[name]();
    return this.module.text().split("\n");
  }

  // Findings by their positions among all, each with its row in the list of packets, or null.
  findingsAt(positions) {
    return positions.map((at) => ({ ...valueOfJson(this.findings[at]), row: this.rowsOfFindings[at] }));
  }

  // The findings at rows of the list of packets.
  findingsIn(rows) {
    const wanted = new Set(rows);
    return this.findingsAt([...this.rowsOfFindings.keys()].filter((at) => wanted.has(this.rowsOfFindings[at])));
  }

  get count() {
    return this.module?.calls.capture_count() ?? 0;
  }

  get shown() {
    return this.module.calls.capture_shown();
  }

  // What is said of the capture as a whole.
  summary() {
    const { calls } = this.module;
    calls.capture_summary();
    const summary = valueOfJson(this.module.text());
    this.rowsOfFindings = summary.finding_rows.map(({ row }) => row ?? null);
    const findings = this.findingsAt([...this.findings.keys()].slice(0, MOST_FINDINGS));
    return {
      ...summary, finding_rows: undefined, capture: this.capture, findings, finding_count: this.findings.length,
      connections: this.connections.length,
    };
  }

  // Connections, each with the transport parameters of both sides, or null.
  cards(from, to) {
    const parameters = (number, side) => (
      this.module.calls.capture_parameters(number, side) ? valueOfJson(this.module.text()) : null);
    return this.connections.slice(from, to).map(valueOfJson).map((connection) => ({
      ...connection, parameters: SIDES.map((_, side) => parameters(connection.connection, side)),
      streams: this.module.calls.capture_stream_count(connection.connection),
    }));
  }

  // The streams of a connection between two positions, each with what a side sent on it.
  streams(connection, from, to) {
    return this.module.objects("capture_streams", connection, from, to);
  }

  // Lists only what a filter lets through: what that is, or why the filter can't be read.
  filter(text) {
    this.module.putText(text);
    const isRead = this.module.calls.capture_filter() === 1;
    return { isRead, text: isRead ? this.module.text() : this.module.words, shown: this.shown };
  }

  rows(from, to) {
    return this.module.objects("capture_rows", from, to);
  }

  position(index) {
    return this.module.calls.capture_position(index);
  }

  // For each packet of a connection six numbers: time, packet number, side, state, space and index.
  points(connection) {
    this.module.calls.capture_points(connection);
    return new Float64Array(this.module.bytes());
  }

  // A packet with its datagram. If there was no room for that, or for a payload, the capture is read again up to there.
  async detail(index, after = () => false) {
    this.module.calls.capture_detail(index);
    const detail = valueOfJson(this.module.text());
    detail.findings = this.findingsIn(detail.packets.map((packet) => packet.index));
    if (isKept(detail)) {
      return detail;
    }
    const module = await this.begin(RECORD, after, detail.record);
    await this.feed(module, (read) => after(read) || module.calls.capture_count() > index);
    if (module.calls.capture_detail(index) === 0) {
      return detail;
    }
    const again = valueOfJson(module.text());
    // What was found later is only in the first table.
    const found = new Map(detail.packets.map((packet) => [packet.index, packet]));
    const packets = again.packets.map((packet) => ({ ...packet, ...found.get(packet.index) }));
    return { ...again, packets, findings: detail.findings };
  }

  // What quic-wire capture --json prints, as bytes in parts.
  async objects(after = () => false) {
    const module = await this.begin(OBJECTS, after);
    const [parts, counted] = [[], savedSize()];
    const take = (read) => {
      module.calls.capture_lines();
      parts.push(counted(module.bytes()));
      return after(read);
    };
    this.faultOfSaved = await this.feed(module, take);
    await this.finish(module, take);
    take(this.file.size);
    return parts;
  }

  // The traces that quic-wire capture --qlog writes, of all connections or of one: for each its parts, in bytes.
  async traces(name, connection = null, after = () => false) {
    const module = await (
      connection === null ? this.begin(TRACES, after, 0, name) : this.begin(TRACE, after, connection, name));
    const [traces, counted] = [new Map(), savedSize()];
    const take = (read) => {
      module.calls.capture_traces();
      addPieces(traces, counted(module.bytes()));
      return after(read);
    };
    this.faultOfSaved = await this.feed(module, take);
    await this.finish(module, take);
    take(this.file.size);
    return traces;
  }

  // What quic-wire check --json prints.
  checkLines() {
    this.module.calls.capture_check_lines();
    return this.module.text();
  }
}
