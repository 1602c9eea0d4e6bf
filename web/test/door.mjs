// The page's doors, in node: what that of captures shows when files come one after the other, are damaged or are none,
// of filters that can't be read, and of what is pointed at in the picture; and what that of bytes shows after what
// can't be read. dom.mjs stands for the document, and the worker runs in this thread. As dumps.mjs it uses a copy of
// web/'s modules.
//
// node web/test/door.mjs TOP MODULE
import fs from "node:fs";
import os from "node:os";
import path from "node:path";
import { pathToFileURL } from "node:url";
import zlib from "node:zlib";
import { makeDocument, ROW } from "./dom.mjs";

const PCAP_HEADER = 24;
// In milliseconds.
const [PATIENCE, STEP] = [20000, 5];
const [top, module] = process.argv.slice(2);
const data = (name) => fs.readFileSync(path.join(top, "rust", "capture", "tests", "data", name));
const [CAPTURE, KEYS] = [data("small.pcap"), data("small.keys")];
const { byId, resized, tellWindow } = makeDocument(fs.readFileSync(path.join(top, "web", "index.html"), "utf8"));

// The worker's own part, and the one that the page has of it last.
let [take, worker] = [null, null];
globalThis.addEventListener = (type, taker) => { take = taker; };
globalThis.postMessage = (message) => {
  const own = structuredClone(message);
  setImmediate(() => worker.tell("message", { data: own }));
};

class WorkerHere {
  constructor() {
    [this.takers, this.isEnded] = [new Map(), false];
  }

  addEventListener(type, taker) {
    this.takers.set(type, taker);
  }

  tell(type, event) {
    if (!this.isEnded) {
      this.takers.get(type)(event);
    }
  }

  postMessage(message) {
    setImmediate(() => take({ data: message }));
  }

  terminate() {
    this.isEnded = true;
  }
}

globalThis.Worker = WorkerHere;

const room = fs.mkdtempSync(path.join(os.tmpdir(), "page-"));
for (const name of fs.readdirSync(path.join(top, "web")).filter((file) => file.endsWith(".js"))) {
  fs.cpSync(path.join(top, "web", name), path.join(room, name));
}
fs.writeFileSync(path.join(room, "package.json"), '{"type":"module"}');
const part = (name) => import(pathToFileURL(path.join(room, name)));
await part("worker.js");
const { fromHex } = await part("bytes.js");
const { Captures } = await part("captures.js");
const { showFindings } = await part("findings.js");
const { Library } = await part("library.js");
const { DEFAULT_STATE } = await part("link.js");
const { objectsOf } = await part("module.js");
const { RFC_9001 } = await part("packets.js");
const { Page } = await part("page.js");
const { readBytes } = await part("reading.js");
const { stripOf } = await part("strip.js");
const connections = await part("connections.js");
fs.rmSync(room, { recursive: true });

let [count, failed] = [0, 0];
function same(found, wanted, what) {
  count += 1;
  if (JSON.stringify(found) !== JSON.stringify(wanted)) {
    failed += 1;
    console.log(`door.mjs: ${what}: ${JSON.stringify(found)} and not ${JSON.stringify(wanted)}`);
  }
}

// Waits until something holds.
async function until(test, what) {
  const end = performance.now() + PATIENCE;
  while (!test()) {
    if (performance.now() > end) {
      throw new Error(`${what} hasn't come: ${status()}`);
    }
    await new Promise((done) => setTimeout(done, STEP));
  }
}

const status = () => byId("capture-status").textContent;
const isBad = () => byId("capture-status").classList.contains("bad");
const state = () => document.documentElement.dataset.capture;
const file = (name, ...parts) => new File(parts.flat(), name);
// A capture whose packets come so many times.
const repeated = (times) => [CAPTURE.subarray(0, PCAP_HEADER), ...Array(times).fill(CAPTURE.subarray(PCAP_HEADER))];
const rowsOf = () => byId("packets").querySelectorAll(".packet-row");
const areRows = () => rowsOf().length > 0 && rowsOf().every(({ dataset }) => dataset.index !== undefined);
const note = () => byId("filter-note").textContent;

const [libraries, ofBytes] = await Promise.all([3, 5].map((many) => Library.load(fs.readFileSync(module), many)));
const captures = new Captures(byId, {
  module: fs.readFileSync(module), libraries, columns: () => 16,
  worker: () => {
    worker = new WorkerHere();
    return worker;
  },
});
captures.start();
byId("captures-door").hidden = false;

// Gives files to the page, and waits until the list of packets is there.
async function give(...files) {
  document.documentElement.dataset.capture = "";
  byId("filter-note").textContent = "";
  captures.take(files);
  await until(() => ["ready", "failed"].includes(state()), "the end of reading");
  await until(() => state() === "failed" || note() !== "", "the list");
}

// A worker that doesn't start isn't asked again.
async function worksAgain() {
  captures.take([file("small.pcap", CAPTURE)]);
  await until(() => worker !== null, "a worker");
  const first = worker;
  worker.tell("error", {});
  same([state(), status()], ["failed", "Not read: the worker doesn’t start."], "a worker that doesn't start");
  await give(file("small.pcap", CAPTURE));
  same([state(), worker === first, first.isEnded], ["ready", false, true], "the worker of the next capture");
}

// A file of which the first bytes come late, as from a network.
class LateFile extends File {
  constructor(wait, ...rest) {
    super(...rest);
    this.wait = wait;
  }

  slice(...range) {
    const piece = super.slice(...range);
    return { arrayBuffer: () => this.wait.then(() => piece.arrayBuffer()), text: () => piece.text() };
  }
}

// The last files that were given are shown, also if earlier ones come later.
async function inOrder() {
  let come = null;
  const wait = new Promise((done) => { come = done; });
  const late = captures.take([new LateFile(wait, [CAPTURE], "late.pcap")]);
  await give(file("other.pcap", CAPTURE), file("other.keys", KEYS));
  same(status().startsWith("other.pcap, with other.keys; 16 packets"), true, `the capture before: ${status()}`);
  come();
  await late;
  await until(() => state() === "ready", "what comes late");
  same(status().startsWith("other.pcap, "), true, `what comes late: ${status()}`);
  await captures.take([]);
  same(state(), "ready", "no files");
}

// A file that is gone by the time it is read, as browsers say that.
class GoneFile extends File {
  slice(from, to) {
    const gone = () => Promise.reject(new DOMException("It could not be found.", "NotFoundError"));
    return to > 4 ? { arrayBuffer: gone, text: gone } : super.slice(from, to);
  }
}

async function gone() {
  captures.take([new GoneFile([CAPTURE], "gone.pcap")]);
  await until(() => state() === "failed", "a file that is gone");
  same([status(), isBad()], ["Not read: It could not be found.", true], "a file that is gone");
}

// Why a file isn't taken stays to be read while another one is.
async function saysWhy() {
  const why = "Not read: notes.txt is neither a capture (pcap, pcapng, also compressed by gzip) nor a key log.";
  captures.take([file("large.pcap", repeated(300))]);
  await until(() => / packets? in /.test(status()), "progress");
  await captures.take([file("notes.txt", "nothing")]);
  await until(() => state() === "ready", "a large capture");
  same([status().startsWith(`${why} large.pcap, `), isBad()], [true, true], `a file that is none: ${status()}`);
  await give(file("small.pcap", CAPTURE));
  same([status().startsWith("small.pcap, "), isBad()], [true, false], `the next one: ${status()}`);
}

// A damaged file is bad also once a packet of it was chosen, and so is what is saved of it.
async function damaged() {
  const packed = zlib.gzipSync(Buffer.concat(repeated(20)));
  const fault = "the rest of the file, which gzip compressed, can’t be read";
  await give(file("cut.pcap.gz", packed.subarray(0, packed.length >> 1)), file("other.keys", KEYS));
  same([status().includes(fault), isBad()], [true, true], `a damaged file: ${status()}`);
  await until(areRows, "rows");
  captures.list.select(0);
  await until(() => byId("packet-title").textContent !== "" && !byId("packet").hidden, "a packet");
  same([status().includes(fault), isBad()], [true, true], "the same with a packet");
  byId("save-objects").click();
  await until(() => state() === "ready", "what is saved");
  same([status(), isBad()], [`cut.pcap.gz.jsonl has only a part of the capture: ${fault}.`, true], "what is saved");
}

// A filter that can't be read leaves another capture's list alone, and none of the one before.
async function filters() {
  await give(file("large.pcap", repeated(40)), file("other.keys", KEYS));
  captures.list.apply("pn:x");
  await until(() => note().endsWith("isn't a number or a range"), "a filter that is none");
  await until(areRows, "rows");
  same(rowsOf()[0].getAttribute("aria-setsize"), "640", "how many rows there are");
  // What hasn't come can't be printed.
  tellWindow("beforeprint");
  const more = byId("packets").querySelectorAll(".more")[0].textContent;
  same([areRows(), rowsOf().length, more], [true, 200, "▾ 440 more rows"], "the rows on paper");
  tellWindow("afterprint");
  same(areRows(), true, "the rows afterwards");
  await give(file("small.pcap", CAPTURE));
  same([note(), byId("packets").querySelectorAll(".sizer")[0].style.height],
    ["\"pn:x\": \"x\" isn't a number or a range", `${16 * ROW}px`], "the list with such a filter");
  await until(areRows, "all rows");
  same(rowsOf().map((row) => row.getAttribute("aria-setsize")), Array(16).fill("16"), "its rows");
  captures.list.apply("");
  await until(() => note() === "16 shown: all packets", "no filter");
}

// Screen readers get the packet that is chosen, however that was.
async function tellsChosen() {
  const list = byId("packets");
  const active = () => list.getAttribute("aria-activedescendant");
  await until(areRows, "rows");
  captures.list.goTo(5);
  await until(() => captures.list.at === 5, "the sixth packet");
  same(active(), "packet-5", "a packet that was gone to");
  captures.list.apply("server");
  await until(() => note().includes("of the server"), "the server's packets");
  same(active(), null, "with another filter");
  same(list.tell("keydown", { key: "Home", altKey: true }).defaultPrevented, false, "a key of the browser's");
  captures.list.apply("");
  await until(() => note() === "16 shown: all packets", "no filter");
}

// Rows that can't be seen when they come have their own height later.
async function hiddenDoor() {
  const door = byId("captures-door");
  door.hidden = true;
  await give(file("small.pcap", CAPTURE), file("other.keys", KEYS));
  door.hidden = false;
  resized();
  same(byId("packets").querySelectorAll(".sizer")[0].style.height, `${16 * ROW}px`, "the height of rows");
}

// What is lit of a packet isn't shown with another one, whose bytes aren't there.
async function forgetsLit() {
  await until(areRows, "rows");
  captures.list.select(0);
  await until(() => !byId("packet-inspector").hidden, "what is lit");
  const packets = [{ index: 9, type: "1-RTT", number: 3, packet_in_datagram: [0, 30], text: "PING" }];
  const detail = { index: 9, record: 9, from: "a", to: "b", packets, findings: [] };
  captures.receive("detail", { detail });
  same(byId("packet-note").textContent, "1-RTT 3, bytes 0..30: PING. Its bytes aren’t kept.", "a packet without bytes");
  same(byId("packet-inspector").hidden, true, "what was lit before");
}

// A ClientHello of which only a part is in the datagram of RFC 9001, appendix A.2; and the same from a server, which
// sends none.
function helloGoesOn() {
  const place = { index: 0, type: "Initial", number: 2, packet_in_datagram: [0, 1200], id_len: 8 };
  const packet = { ...place, opened: true, text: "", mask: "437b9aec36", payload: "06000a010000ed0303ebf8fa56" };
  const all = { index: 0, record: 1, from: "a", to: "b", datagram: RFC_9001.A2, findings: [] };
  captures.receive("detail", { detail: { ...all, packets: [{ ...packet, sender: "client" }] } });
  same([byId("packet-hello").hidden, byId("packet-hello-note").textContent],
    [false, "The ClientHello isn’t whole: it goes on in another packet."], "a part of a ClientHello");
  captures.receive("detail", { detail: { ...all, packets: [{ ...packet, sender: "server" }] } });
  same(byId("packet-hello").hidden, true, "what a server sends");
}

// Three packets, of which the first is beside the part that is enlarged.
async function pointed() {
  const [picture, spot] = [byId("timeline"), () => byId("timeline-spot").textContent];
  const point = (type, offsetX, offsetY, more) => picture.tell(type, { offsetX, offsetY, button: 0, ...more });
  const { timeline } = captures;
  await until(() => !byId("times").hidden, "the capture's own picture");
  timeline.show(Float64Array.of(0, 5, 0, 0, 2, 0, 1, 0, 1, 1, 2, 1, 2, 10, 0, 2, 2, 2));
  const [x, y] = timeline.place(0, 5);
  point("pointermove", x, y);
  same(spot(), "client, packet 5, 0.000000 s, not acknowledged", "a packet under the pointer");
  timeline.enlarge(x + 15, picture.clientWidth);
  const [left, middle] = timeline.place(0, 5);
  same(left > 0 && left < x, true, "it is beside what is enlarged");
  point("pointermove", left, middle);
  same(spot(), "", "a packet that isn't drawn, under the pointer");
  timeline.all();
  point("pointerdown", 100, 50, { button: 2 });
  point("pointermove", 300, 50);
  same(timeline.drag, null, "another button");
  point("pointerdown", 100, 50);
  point("pointercancel", 100, 90);
  same(timeline.drag, null, "a drag that the browser takes over");
  const [keys, at] = [["ArrowLeft", "ArrowRight"], timeline.at];
  const are = keys.map((key) => picture.tell("keydown", { key, altKey: true }).defaultPrevented);
  same([are, timeline.at], [[false, false], at], "keys with which the browser goes back and forth");
}

// Numbers up to 2^62 - 1 (RFC 9000, section 16) are shown as they are, and titles count what is there.
function counted() {
  const [most62, other, quoted] = [2n ** 62n - 1n, 2n ** 62n - 5n, 2n ** 60n];
  const [{ most, ids, text }] = objectsOf(`{"most":${most62},"ids":[1,${other}],"text":"[${quoted}]"}`);
  same([`${most}`, ids.join(), text],
    ["4611686018427387903", "1,4611686018427387899", "[1152921504606846976]"], "numbers in JSON");
  same(connections.parameterText?.(ids), "[1,4611686018427387899]", "ids of transport parameters");
  same(connections.parameterText?.({ 27: "00", 58: [most] }), '{"27":"00","58":[4611686018427387903]}', "an object");
  captures.receive("points", { connection: 0, points: new Float64Array(2 * 6) });
  same(byId("times-title").textContent, "Packet numbers over time, connection 0, 2 of 16 packets", "a picture of some");
  const finding = { record: 1, sender: "client", type: "Initial", seen: "a", expected: "b", rfc: 9000, section: "1" };
  const findings = [0, 1].map((row) => ({ ...finding, row, count: 1 }));
  showFindings(byId("findings"), byId("found-title"), findings, 2, () => {});
  same(byId("found-title").textContent, "Broken rules: 2 findings", "a rule that both sides break");
}

// What was lit and shown isn't beside what can't be read, or when the module fails.
function forgetsInput() {
  const page = new Page(ofBytes);
  page.start();
  const [input, inspector] = [byId("input"), byId("inspector")];
  const write = (text) => {
    input.value = text;
    try {
      input.tell("input");
      return null;
    } catch ({ message }) {
      return message;
    }
  };
  const said = () => byId("status").textContent;
  page.views.select(page.views.spotAt(2));
  same(inspector.hidden, false, "what is lit");
  same([write("?"), inspector.hidden, said().startsWith("No bytes")], [null, true, true], `no bytes: ${said()}`);
  same([write("0101"), byId("views").hidden], [null, false], "bytes");
  const { readFrames } = page.library;
  const { error } = console;
  console.error = () => {};
  page.library.readFrames = () => { throw new Error("no memory"); };
  same([write("01"), byId("views").hidden, said()],
    [null, true, "This page has failed: no memory. Load it again."], "a module that fails");
  Object.assign(console, { error });
  page.library.readFrames = readFrames;
}

// RFC 9001, appendix A.2, cut off after 200 bytes and without its fixed bit, which is rejected first: its Length begins
// at byte 16, and says that 1182 bytes follow.
function cutOff() {
  const bytes = fromHex(RFC_9001.A2).slice(0, 200);
  bytes[0] &= 0xbf;
  const choices = { ...DEFAULT_STATE, mode: "datagram", quinn: true };
  const reading = readBytes(libraries[0], bytes, choices);
  const { begin, end, value } = reading.item(0).fields.at(-1);
  same([reading.error.reason, reading.error.place, begin, end, value],
    ["fixed bit unset", 0, 18, 200, "182 of 1182 bytes"], "a packet that is cut off, without its fixed bit");
}

// A strip of many ranges takes its time once, not whenever its list scrolls.
function strips() {
  const ranges = Array.from({ length: 300000 }, (_, at) => [3n * BigInt(300000 - at), 3n * BigInt(300000 - at) + 1n]);
  const [first, second] = [0, 0].map(() => {
    const began = performance.now();
    const [, strip] = stripOf(ranges);
    same(strip.getAttribute("aria-label"), "600000 of 899999 packets, in 300000 ranges", "a strip of many ranges");
    return performance.now() - began;
  });
  same(second < first / 10, true, `a strip is drawn in ${first.toFixed(1)} ms, and again in ${second.toFixed(1)} ms`);
}

for (const test of [
  worksAgain, inOrder, gone, saysWhy, damaged, filters, tellsChosen, hiddenDoor, forgetsLit, helloGoesOn, pointed,
  counted, cutOff, strips, forgetsInput,
]) {
  try {
    await test();
  } catch (error) {
    failed += 1;
    console.log(`door.mjs: ${test.name}: ${error.message}`);
  }
}
console.log(`the door of captures: ${count} checked, ${failed} wrong`);
process.exit(failed > 0 ? 1 : 0);
