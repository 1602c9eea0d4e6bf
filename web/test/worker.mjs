// The page's worker, in node: what it answers while it reads, and when it ends early. As dumps.mjs it uses a copy of
// web/'s modules.
//
// node web/test/worker.mjs TOP MODULE
import fs from "node:fs";
import os from "node:os";
import path from "node:path";
import { pathToFileURL } from "node:url";
import zlib from "node:zlib";

// How long the worker may keep messages waiting, in milliseconds.
const LONGEST = 200;
const PCAP_HEADER = 24;
const [top, module] = process.argv.slice(2);
const data = (name) => fs.readFileSync(path.join(top, "rust", "capture", "tests", "data", name));
const [CAPTURE, KEYS] = [data("small.pcap"), data("small.keys")];

// The worker's messages, and those that wait for one of them.
let [told, waiting, take] = [[], [], null];
globalThis.addEventListener = (type, taker) => { take = taker; };
globalThis.postMessage = (message) => {
  told.push(message);
  // Those that are done leave.
  waiting = waiting.filter(({ fits, done }) => !fits(message) || done(message) === "again");
};
const room = fs.mkdtempSync(path.join(os.tmpdir(), "page-"));
for (const name of fs.readdirSync(path.join(top, "web")).filter((file) => file.endsWith(".js"))) {
  fs.cpSync(path.join(top, "web", name), path.join(room, name));
}
fs.writeFileSync(path.join(room, "package.json"), '{"type":"module"}');
await import(pathToFileURL(path.join(room, "worker.js")));
fs.rmSync(room, { recursive: true });

let run = 0;
const send = (type, message = {}) => take({ data: { type, run, ...message } });
const next = (...types) => new Promise((done) => {
  waiting.push({ fits: (message) => types.includes(message.type) && message.run === run, done });
});

let [count, failed] = [0, 0];
function same(found, wanted, what) {
  count += 1;
  if (JSON.stringify(found) !== JSON.stringify(wanted)) {
    failed += 1;
    console.log(`worker.mjs: ${what}: ${JSON.stringify(found)} and not ${JSON.stringify(wanted)}`);
  }
}

// Opens files, and returns the message with which reading ends. |meanwhile| is called once there is progress.
async function opened(files, meanwhile = () => {}) {
  run += 1;
  told = [];
  const [end, progress] = [next("ready", "failed"), next("progress")];
  send("open", files);
  await Promise.race([end, progress]);
  await meanwhile();
  return end;
}

const blobs = (...parts) => ({ files: parts.map((part) => new Blob([part].flat())) });

// A capture whose packets come so many times.
const repeated = (times) => [CAPTURE.subarray(0, PCAP_HEADER), ...Array(times).fill(CAPTURE.subarray(PCAP_HEADER))];

// A record of a UDP datagram of so many bytes, which isn't opened.
function recordOf(payload) {
  const headers = 28;
  const record = Buffer.alloc(16 + headers + payload, 0x41);
  record.fill(0, 0, 16 + headers);
  record.writeUInt32LE(headers + payload, 8);
  record.writeUInt32LE(headers + payload, 12);
  record.set([0x45, 0, ...be(headers + payload), 0, 0, 0, 0, 64, 17, 0, 0, 10, 0, 0, 1, 10, 0, 0, 2], 16);
  record.set([...be(443), ...be(4433), ...be(8 + payload), 0, 0], 36);
  return record;
}

// A pcap file of raw IP with so many datagrams of 60,000 bytes, and more records.
function large(records, ...more) {
  const file = Buffer.from(CAPTURE.subarray(0, PCAP_HEADER));
  file.writeUInt32LE(101, 20);
  return [file, ...Array(records).fill(recordOf(60000)), ...more];
}

// The records of the capture without the 14 bytes of Ethernet's headers.
function* recordsOfIp() {
  for (let at = PCAP_HEADER; at < CAPTURE.length;) {
    const [begin, end] = [at + 16, at + 16 + CAPTURE.readUInt32LE(at + 8)];
    const header = Buffer.from(CAPTURE.subarray(at, begin));
    [8, 12].forEach((place) => header.writeUInt32LE(header.readUInt32LE(place) - 14, place));
    yield Buffer.concat([header, CAPTURE.subarray(begin + 14, end)]);
    at = end;
  }
}

const be = (number) => [number >> 8, number & 0xff];

// What stops, or is about another capture, ends reading soon.
async function endsEarly() {
  const whole = await opened(blobs(repeated(300), KEYS));
  same([whole.fault, whole.isStopped], ["", false], "a capture that is read to its end");
  const stopped = await opened(blobs(repeated(300), KEYS), () => send("stop"));
  same([stopped.fault, stopped.isStopped], ["", true], "a capture whose reading is stopped");
  same(stopped.summary.packets < whole.summary.packets, true, `${stopped.summary.packets} packets until then`);
  const log = Buffer.concat([Buffer.alloc(1 << 25, "# nothing\n"), KEYS]);
  const { summary, isStopped } = await opened(blobs(CAPTURE, log), () => send("stop"));
  same([summary.secrets, isStopped], [0, true], "a long key log whose reading is stopped");
  const before = run + 1;
  const small = await opened(blobs(repeated(300), KEYS), () => opened(blobs(CAPTURE, KEYS)));
  same(small.type, "ready", "a capture that is chosen while another one is read");
  const ends = told.filter(({ type }) => type !== "progress").map(({ type, run: of }) => [type, of - before]);
  same(ends, [["cancelled", 0], ["ready", 1]], "how both end");
}

// Messages have their turn, also if a piece has thousands of packets.
async function answersSoon() {
  let [last, longest, rows] = [performance.now(), 0, 0];
  const timer = setInterval(() => {
    const now = performance.now();
    [longest, last] = [Math.max(longest, now - last), now];
  }, 1);
  const { summary } = await opened(blobs(repeated(600), KEYS), async () => {
    // The page asks for rows once there are some.
    while (!told.some(({ type, count: packets }) => type === "progress" && packets > 0)) {
      await next("progress");
    }
    const answer = next("rows");
    send("rows", { from: 0, to: 10 });
    rows = (await answer).list.length;
  });
  clearInterval(timer);
  same(rows, 10, "rows while the capture is read");
  same(longest < LONGEST, true, `${longest.toFixed(0)} ms until a message is taken, of ${summary.packets} packets`);
}

// Files that the page reads for the worker, and key logs of several pieces.
async function inPieces() {
  const wanted = (await opened(blobs(CAPTURE, KEYS))).summary;
  const line = KEYS.indexOf("\n") + 1;
  // The end of the first piece is within the key log's first line.
  const comments = Buffer.from("# nothing\n".repeat(200000)).subarray(0, 10 * Math.floor(((1 << 20) - 40) / 10));
  const log = Buffer.concat([comments, KEYS.subarray(0, line), comments, KEYS.subarray(line)]);
  const found = (await opened(blobs(CAPTURE, log))).summary;
  same(found, wanted, "a key log of several pieces");
  const files = [CAPTURE, log];
  waiting.push({
    fits: ({ type }) => type === "piece",
    done: ({ type, number, file, from, to }) => {
      const bytes = new Uint8Array(files[file].subarray(from, to)).buffer;
      setImmediate(() => take({ data: { type, number, bytes } }));
      return "again";
    },
  });
  const again = await opened({ sizes: files.map(({ length }) => length) });
  same(again.summary, wanted, "files that the page reads");
}

// Of a compressed file all parts are read. A part of one that is cut off is shown, with words.
async function compressed() {
  const capture = Buffer.concat(repeated(20));
  const plain = await opened(blobs(capture, KEYS));
  const packed = zlib.gzipSync(capture);
  const whole = await opened(blobs(packed, KEYS));
  same([whole.fault, whole.summary], ["", plain.summary], "a compressed capture");
  const parts = [capture.subarray(0, 1000), capture.subarray(1000)].map((part) => zlib.gzipSync(part));
  const joined = await opened(blobs(Buffer.concat(parts), KEYS));
  same([joined.fault, joined.summary], ["", plain.summary], "one of two compressed parts");
  const cut = await opened(blobs(packed.subarray(0, packed.length >> 1), KEYS));
  same(cut.fault, "the rest of the file, which gzip compressed, can’t be read", "one that is cut off");
  const { packets } = cut.summary;
  same([packets > 0, packets < whole.summary.packets], [true, true], `${packets} packets of it`);
  for (const [type, name] of [["save", "cut.jsonl"], ["saveTraces", "cut.0.sqlog"]]) {
    const saved = next("saved", "unsaved");
    send(type, { name: "cut", connection: null });
    const { name: found, fault } = await saved;
    same([found, fault], [name, cut.fault], "what is saved of it");
  }
}

// Of packets for which there was no room, the last one is read again.
async function readAgain() {
  const { summary } = await opened(blobs(large(4600)));
  same(summary.packets, 4600, "packets of a capture of 276 MB");
  const details = next("detail");
  send("detail", { index: 4598 });
  await next("progress");
  send("detail", { index: 4599 });
  const { detail } = await details;
  same([detail.record, detail.datagram?.length], [4600, 120000], "the packet that was chosen last");
  const answers = told.map(({ type }) => type).filter((type) => type !== "progress" && type !== "ready");
  same(answers, ["cancelled", "detail"], "how the one before it ends, and it");
  const stopped = next("detail");
  send("detail", { index: 4599 });
  await next("progress");
  send("stop");
  same("datagram" in (await stopped).detail, false, "one whose reading is stopped");
}

const detailOf = async (index) => {
  const answer = next("detail");
  send("detail", { index });
  return (await answer).detail;
};

// A datagram is read again also if only one of its payloads had no room. 256 MB are kept, in parts of 1 MB: 17
// datagrams are in each, and 28,576 bytes are left of the last one.
async function readPayloadAgain() {
  const { summary } = await opened(blobs(CAPTURE, KEYS));
  const records = new Map();
  for (let index = 0; index < summary.packets; index += 1) {
    const detail = await detailOf(index);
    records.set(detail.record, detail);
  }
  const sizesOf = ({ datagram, packets }) => [datagram, ...packets.map(({ payload }) => payload)]
    .map((digits = "") => digits.length / 2);
  const all = [...records.values()];
  const place = all.findIndex(({ packets }) => packets.filter(({ payload }) => payload).length > 1);
  const before = all.slice(0, place).flatMap(sizesOf).reduce((sum, size) => sum + size, 0);
  const [datagram, first, second] = sizesOf(all[place]);
  const rest = recordOf(28576 - (before + first + datagram + second - 1));
  await opened(blobs(large(17 * 256, rest, ...recordsOfIp()), KEYS));
  const { packets } = all[place];
  const again = await detailOf(17 * 256 + 1 + packets[1].index);
  same(again.packets.map(({ payload }) => payload), packets.map(({ payload }) => payload), "payloads without room");
}

send("start", { module: fs.readFileSync(module) });
await endsEarly();
await answersSoon();
await inPieces();
await compressed();
await readAgain();
await readPayloadAgain();
if (failed > 0) {
  console.error(`worker.mjs: ${failed} of ${count} checks failed`);
  process.exit(1);
}
console.log(`${count} checks of the worker`);
