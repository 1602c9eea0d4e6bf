// How long the page's reader takes for a large capture, in node: until the first rows, until all is read, for what the
// page asks then, and for saving; the longest step, in which a worker answers nothing; and memory. Fails if a step of
// reading or saving takes more than 200 ms. As dumps.mjs it uses a copy of web/'s modules. The example `generate` of
// rust/capture makes large captures.
//
// node web/test/large.mjs TOP MODULE FILE [KEYS]
import fs from "node:fs";
import os from "node:os";
import path from "node:path";
import { monitorEventLoopDelay } from "node:perf_hooks";
import { pathToFileURL } from "node:url";

// In milliseconds.
const LONGEST = 200;
const [top, module, name, keys] = process.argv.slice(2);
const room = fs.mkdtempSync(path.join(os.tmpdir(), "page-"));
for (const file of ["reader.js", "module.js"]) {
  fs.cpSync(path.join(top, "web", file), path.join(room, file));
}
fs.writeFileSync(path.join(room, "package.json"), '{"type":"module"}');
const { Reader } = await import(pathToFileURL(path.join(room, "reader.js")));
fs.rmSync(room, { recursive: true });

const megabytes = (bytes) => `${(bytes / 1e6).toFixed(0)} MB`;
const say = (what, value) => console.log(`${what.padEnd(36)} ${value}`);

// A file on the disk, with the calls of a Blob.
class DiskFile {
  constructor(where) {
    this.handle = fs.openSync(where);
    this.size = fs.fstatSync(this.handle).size;
  }

  slice(begin, end) {
    return {
      arrayBuffer: async () => {
        const bytes = new Uint8Array(Math.max(0, Math.min(end, this.size) - begin));
        fs.readSync(this.handle, bytes, 0, bytes.length, begin);
        return bytes.buffer;
      },
    };
  }
}

// How many milliseconds something takes, and the longest step of it, which may have so many.
let isLong = false;
async function timed(what, act, most = Infinity) {
  const delays = monitorEventLoopDelay({ resolution: 1 });
  delays.enable();
  const [began, spent] = [performance.now(), process.cpuUsage()];
  const result = await act();
  const took = performance.now() - began;
  const { user, system } = process.cpuUsage(spent);
  // The last step counts once the loop has gone on.
  await new Promise((done) => setTimeout(done, 5));
  delays.disable();
  const processor = `${((user + system) / 1000).toFixed(0)} ms of the processor`;
  say(what, `${took.toFixed(0)} ms, ${processor}; the longest step has ${(delays.max / 1e6).toFixed(0)} ms`);
  isLong ||= delays.max / 1e6 > most;
  return result;
}

const compiled = await WebAssembly.compile(fs.readFileSync(module));
const file = new DiskFile(name);
const reader = new Reader(compiled, file, keys ? [new DiskFile(keys)] : []);
say("capture", `${path.basename(name)}, ${megabytes(file.size)}`);
const began = performance.now();
let first = 0;
await timed("all of it", () => reader.read(() => {
  if (first === 0 && reader.count > 0) {
    reader.rows(0, 50);
    first = performance.now() - began;
  }
  return false;
}), LONGEST);
say("the first rows after", `${first.toFixed(0)} ms`);
const summary = reader.summary();
say("packets, connections", `${summary.packets} and ${summary.further_packets} more, ${summary.connections} and `
  + `${summary.further_connections} more`);
if (reader.fault) {
  say("fault", reader.fault);
}
await timed("the summary", async () => reader.summary());
await timed("100 connections", async () => reader.cards(0, 100));
await timed("the points of a connection", async () => reader.points(0));
await timed("a filter", async () => reader.filter("lost"));
await timed("another one", async () => reader.filter("stream -ack"));
await timed("50 rows in the middle", async () => reader.rows(reader.shown >> 1, (reader.shown >> 1) + 50));
await timed("the last packet", () => reader.detail(reader.count - 1), LONGEST);
const { memory } = reader.module.calls;
say("memory of the module", megabytes(memory.buffer.byteLength));
const parts = await timed("saved as JSON", () => reader.objects(), LONGEST);
say("JSON", megabytes(parts.reduce((sum, part) => sum + part.byteLength, 0)));
const traces = await timed("saved as qlog", () => reader.traces(path.basename(name)), LONGEST);
const sizes = [...traces.values()].flat().map((part) => part.byteLength);
say("qlog", `${megabytes(sizes.reduce((sum, size) => sum + size, 0))}, ${traces.size} traces`);
say("memory of node", megabytes(process.resourceUsage().maxRSS * 1024));
if (isLong) {
  console.error(`large.mjs: a step took more than ${LONGEST} ms`);
  process.exitCode = 1;
}
