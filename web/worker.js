// The page's worker: reads captures, and answers what the page asks about them. It is a program of its own.

import { Cancelled, Reader } from "./reader.js";
import { tarParts } from "./tar.js";

// How often progress is reported, in milliseconds.
const PAUSE = 100;
const OBJECT_LINES = "application/x-ndjson";
const TRACE_TYPE = "application/qlog+json-seq";
const ARCHIVE_TYPE = "application/x-tar";
const STOPPED = "the module has stopped; if the capture is large, it may need more memory than the module has, 1 GB";

// A file that the page reads for the worker, piece by piece, with the calls of a Blob. |ask| returns what comes.
class PageFile {
  constructor(size, ask) {
    Object.assign(this, { size, ask });
  }

  slice(from, to) {
    return { arrayBuffer: () => this.ask(from, Math.min(to, this.size)) };
  }
}

class Session {
  constructor() {
    this.reader = null;
    // The number that the page gave the capture that is read. What is under way for another one ends.
    this.run = 0;
    // How often what is under way was stopped; how many packets were asked for, of which the last one is read.
    this.stops = 0;
    this.details = 0;
    // The pieces of files that the page reads, by their numbers.
    this.pieces = new Map();
    this.asked = 0;
  }

  tell(type, run, message = {}) {
    postMessage({ type, run, ...message });
  }

  // Something to call with how many bytes of a file were read. It reports that, and returns whether to stop.
  progress(file, run, more = () => ({})) {
    let told = 0;
    const { stops } = this;
    return (read) => {
      if (this.run !== run) {
        throw new Cancelled();
      }
      const now = performance.now();
      if (now - told > PAUSE) {
        told = now;
        this.tell("progress", run, { read, size: file.size, ...more() });
      }
      return this.stops !== stops;
    };
  }

  start({ module }) {
    this.compiled = WebAssembly.compile(module);
  }

  stop() {
    this.stops += 1;
  }

  // A piece of a file, or why the page can't read it.
  piece({ number, bytes, why, name }) {
    const { give, reject } = this.pieces.get(number) ?? {};
    this.pieces.delete(number);
    if (bytes) {
      give?.(bytes);
    } else {
      reject?.(Object.assign(new Error(why), { name }));
    }
  }

  // The files that the page reads, if it sent only their sizes.
  filesOf(sizes, run) {
    this.pieces.forEach(({ reject }) => reject(new Cancelled()));
    this.pieces.clear();
    const ask = (file, from, to) => new Promise((give, reject) => {
      this.asked += 1;
      this.pieces.set(this.asked, { give, reject });
      this.tell("piece", run, { number: this.asked, file, from, to });
    });
    return sizes.map((size, file) => new PageFile(size, (from, to) => ask(file, from, to)));
  }

  // The first file is the capture, the others are key logs.
  async open({ files, sizes = [] }, run) {
    const own = this.filesOf(sizes, run);
    const [file, ...keyLogs] = files ?? own;
    const began = performance.now();
    const { stops } = this;
    const reader = new Reader(await this.compiled, file, keyLogs);
    if (this.run !== run) {
      throw new Cancelled();
    }
    this.reader = reader;
    await reader.read(this.progress(file, run, () => ({ count: reader.count })));
    const { fault } = reader;
    const spent = performance.now() - began;
    this.tell("ready", run, { summary: reader.summary(), fault, spent, isStopped: this.stops !== stops });
  }

  filter({ text }, run) {
    this.tell("filtered", run, this.reader.filter(text));
  }

  rows({ from, to }, run) {
    this.tell("rows", run, { from, list: this.reader.rows(from, to) });
  }

  cards({ from, to }, run) {
    this.tell("cards", run, { from, list: this.reader.cards(from, to) });
  }

  position({ index }, run) {
    this.tell("position", run, { index, at: this.reader.position(index) });
  }

  streams({ connection, from, to }, run) {
    this.tell("streams", run, { connection, from, list: this.reader.streams(connection, from, to) });
  }

  points({ connection }, run) {
    const points = this.reader.points(connection);
    postMessage({ type: "points", run, connection, points }, [points.buffer]);
  }

  async detail({ index }, run) {
    this.details += 1;
    const [progress, number] = [this.progress(this.reader.file, run), this.details];
    const detail = await this.reader.detail(index, (read) => {
      if (this.details !== number) {
        throw new Cancelled();
      }
      return progress(read);
    });
    this.tell("detail", run, { detail });
  }

  // Something to call as the capture is read again for a file, which isn't made if that is stopped.
  untilStopped(run) {
    const progress = this.progress(this.reader.file, run);
    return (read) => {
      if (progress(read)) {
        throw new Cancelled();
      }
      return false;
    };
  }

  async save({ name }, run) {
    const { reader } = this;
    const parts = await reader.objects(this.untilStopped(run));
    const blob = new Blob(parts, { type: OBJECT_LINES });
    this.tell("saved", run, { blob, name: `${name}.jsonl`, fault: reader.faultOfSaved });
  }

  // Traces have the names that the program gives them. Several are in an archive.
  async saveTraces({ name, connection }, run) {
    const { reader } = this;
    const traces = await reader.traces(name, connection, this.untilStopped(run));
    const fault = reader.faultOfSaved;
    const files = [...traces].sort(([one], [other]) => one - other)
      .map(([number, parts]) => [`${name}.${number}.sqlog`, parts]);
    if (files.length === 1) {
      const [[title, parts]] = files;
      this.tell("saved", run, { blob: new Blob(parts, { type: TRACE_TYPE }), name: title, fault });
    } else if (files.length > 0) {
      const blob = new Blob(tarParts(files), { type: ARCHIVE_TYPE });
      this.tell("saved", run, { blob, name: `${name}.qlog.tar`, fault });
    } else {
      this.tell("unsaved", run, { why: "no packet was opened of which a trace could tell" });
    }
  }

  // Does what a message asks for, unless it is about a capture that is no longer read, or isn't yet.
  async take({ type, run, ...message }) {
    if (type === "open") {
      this.run = run;
    } else if (!["start", "stop", "piece"].includes(type) && (run !== this.run || !this.reader?.module)) {
      return;
    }
    try {
      await this[type](message, run);
    } catch (error) {
      if (error instanceof Cancelled) {
        this.tell("cancelled", run, { what: type });
        return;
      }
      const isStopped = error instanceof WebAssembly.RuntimeError;
      this.tell("failed", run, { text: isStopped ? STOPPED : error.message, name: error.name, what: type });
    }
  }
}

const session = new Session();
addEventListener("message", ({ data }) => session.take(data));
