// What the page makes of opened packets and of packet numbers over time: the transport parameters in the ClientHello of
// RFC 9001, appendix A.2, and in what stacks said in the captures of a folder, whose ids are those that quic-wire
// prints; and the picture of their packets as a file. As dumps.mjs it uses a copy of web/'s modules.
//
// node web/test/opened.mjs TOP MODULE FOLDER
import { execFileSync } from "node:child_process";
import fs from "node:fs";
import os from "node:os";
import path from "node:path";
import { pathToFileURL } from "node:url";

// RFC 9001, appendix A.2: the extension in the ClientHello.
const PARAMETERS_OF_A2 = "0408ffffffffffffffff05048000ffff07048000ffff0801100104800075300901100f088394c8f03e51570806"
  + "048000ffff";
const NAMES_OF_A2 = [
  "initial_max_data", "initial_max_stream_data_bidi_local", "initial_max_stream_data_uni", "initial_max_streams_bidi",
  "max_idle_timeout", "initial_max_streams_uni", "initial_source_connection_id", "initial_max_stream_data_bidi_remote",
];
const COLORS = {
  ink: "#000000", line: "#cccccc", ground: "#ffffff", client: "#0000ff", server: "#008000", lost: "#ff0000",
};
const [top, module, folder] = process.argv.slice(2);
const room = fs.mkdtempSync(path.join(os.tmpdir(), "page-"));
for (const name of fs.readdirSync(path.join(top, "web")).filter((file) => file.endsWith(".js"))) {
  fs.cpSync(path.join(top, "web", name), path.join(room, name));
}
fs.writeFileSync(path.join(room, "package.json"), '{"type":"module"}');
const part = (name) => import(pathToFileURL(path.join(room, name)));
const { fromHex, toHex } = await part("bytes.js");
const { chartOf, POINT } = await part("chart.js");
const { readHello } = await part("hello.js");
const { initialPayloads, openInitial } = await part("initial.js");
const { Library } = await part("library.js");
const { DEFAULT_STATE } = await part("link.js");
const { RFC_9001 } = await part("packets.js");
const { Reader } = await part("reader.js");
const { readBytes } = await part("reading.js");
fs.rmSync(room, { recursive: true });
const compiled = await WebAssembly.compile(fs.readFileSync(module));
const [library, helloLibrary] = await Library.load(fs.readFileSync(module), 2);

let [count, failed] = [0, 0];
function same(found, wanted, what) {
  count += 1;
  if (JSON.stringify(found) !== JSON.stringify(wanted)) {
    failed += 1;
    console.log(`opened.mjs: ${what}: ${JSON.stringify(found)} and not ${JSON.stringify(wanted)}`);
  }
}

// The payload of the client's Initial packet in a datagram, as the page opens it.
async function opened(datagram, choices) {
  const packet = readBytes(library, datagram, choices).packet(0);
  const own = datagram.slice(packet.dcid, packet.dcid + packet.dcidlen);
  return openInitial(datagram, packet, [own], (mask) => library.unprotect(packet, mask));
}

// A CRYPTO frame of a part of a message (RFC 9000, section 19.6).
const cryptoFrame = (message, begin, end) => fromHex(`06${[begin, end - begin].map((number) => (
  (number + 0x4000).toString(16))).join("")}${toHex(message.subarray(begin, end))}`);

// RFC 9001, appendix A.2, whole and in two packets.
async function ofTheRfc() {
  const choices = { ...DEFAULT_STATE, mode: "datagram" };
  const datagram = fromHex(RFC_9001.A2);
  const found = await opened(datagram, choices);
  same(found?.side, "client", "who sent A.2");
  const { reading, sender } = readHello(helloLibrary, [found.plain], DEFAULT_STATE);
  same([sender, toHex(reading.bytes)], ["client", PARAMETERS_OF_A2], "the list in A.2");
  same(Array.from({ length: reading.count }, (_, at) => reading.item(at).name), NAMES_OF_A2, "its parameters");
  same(reading.error, null, "its error");
  // Appendix A.2: the CRYPTO frame begins the payload, with an offset of 0 and a length of 241 bytes.
  const message = found.plain.subarray(4, 4 + 241);
  const parts = [cryptoFrame(message, 150, 241), cryptoFrame(message, 0, 150)];
  for (const one of parts) {
    const { reading: none, isPartial } = readHello(helloLibrary, [one], DEFAULT_STATE);
    same([none, isPartial], [null, true], "a part of a ClientHello");
  }
  same(toHex(readHello(helloLibrary, parts, DEFAULT_STATE).reading?.bytes ?? []), PARAMETERS_OF_A2, "both parts");
  // The page finds the other part in another datagram.
  const others = await initialPayloads(library, [datagram, fromHex(RFC_9001.A3)], choices, found);
  same(others.map(toHex), [toHex(found.plain)], "the client’s payloads, without the server’s");
  const { reading: ofServer, isPartial } = readHello(helloLibrary, [fromHex("0200000000")], DEFAULT_STATE);
  same([ofServer, isPartial], [null, false], "a payload without CRYPTO frames");
}

// Each side's list in a capture has the parameters that are printed, in their order.
async function ofCapture(name) {
  const files = [name, name.replace(/\.pcap(ng)?$/, ".keys")].map((one) => path.join(folder, one));
  const [capture, ...logs] = files.filter(fs.existsSync).map((one) => new Blob([fs.readFileSync(one)]));
  const reader = new Reader(compiled, capture, logs);
  await reader.read(() => false);
  const payloads = new Map();
  for (let index = 0; index < reader.count; index += 1) {
    const { packets } = await reader.detail(index);
    const { connection, sender, type, payload, again } = packets.find((packet) => packet.index === index);
    if (payload && !again && ["Initial", "Handshake"].includes(type)) {
      const key = `${connection} ${sender} ${type}`;
      payloads.set(key, [...payloads.get(key) ?? [], fromHex(payload)]);
    }
  }
  for (const { connection, parameters } of reader.cards(0, 1e6)) {
    for (const [side, sender, type] of [[0, "client", "Initial"], [1, "server", "Handshake"]]) {
      const all = payloads.get(`${connection} ${sender} ${type}`);
      if (parameters[side] && all) {
        const { reading } = readHello(helloLibrary, all, DEFAULT_STATE);
        const ids = reading && Array.from({ length: reading.count }, (_, at) => `${reading.item(at).kind}`);
        const whose = `the ids of the ${sender}’s parameters, connection ${connection} of ${name}`;
        same(ids, parameters[side].order.map(String), whose);
      }
    }
    pictureOf(reader.points(connection), `connection ${connection} of ${name}`);
  }
}

// The picture has each packet once, where it is shown, and is XML.
function pictureOf(points, what) {
  let view = [Infinity, -Infinity, Infinity, -Infinity];
  for (let at = 0; at < points.length; at += POINT) {
    const [time, number] = points.subarray(at, at + 2);
    view = [Math.min(view[0], time), Math.max(view[1], time), Math.min(view[2], number), Math.max(view[3], number)];
  }
  const seen = new Set();
  for (let at = 0; at < points.length; at += POINT) {
    const [time, number, side, state] = points.subarray(at, at + 4);
    seen.add(`${state > 1 ? "lost" : side} ${time} ${number}`);
  }
  const text = chartOf(points, [view[0], view[1] + 1e-6, view[2], view[3] + 1], { width: 1e6, height: 1e6 }, COLORS,
    "a <title> & more\u0001");
  // Of the three squares of the legend and those of the packets each is closed.
  const squares = (text.match(/h-[0-9]+z/g) ?? []).length - 3;
  same(squares > 0 && squares <= seen.size, points.length > 0, `${squares} squares in the picture of ${what}`);
  same(/NaN|undefined|Infinity/.test(text), false, `no number is missing in the picture of ${what}`);
  execFileSync("python3", ["-c", "import sys, xml.dom.minidom as x; x.parse(sys.stdin.buffer)"], { input: text });
}

await ofTheRfc();
const files = fs.readdirSync(folder).filter((name) => /\.pcap(ng)?$/.test(name)).sort();
for (const name of files) {
  await ofCapture(name);
}
same(files.length > 0, true, `captures in ${folder}`);
console.log(`opened packets and pictures are as they should be: ${count} checked, ${failed} wrong`);
process.exit(failed > 0 ? 1 : 0);
