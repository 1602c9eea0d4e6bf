// What the page's reader finds in the captures of a folder, with their key logs, is what the program quic-wire prints:
// packets, connections and traces to the byte, findings, and the bytes of streams. It also tries what a page asks for,
// and files that are none. As dumps.mjs it uses a copy of web/'s modules.
//
// node web/test/captures.mjs TOP MODULE QUIC_WIRE FOLDER
import { execFileSync } from "node:child_process";
import fs from "node:fs";
import os from "node:os";
import path from "node:path";
import { pathToFileURL } from "node:url";

const MOST_OUTPUT = 1 << 28;
const [top, module, program, folder] = process.argv.slice(2);
const room = fs.mkdtempSync(path.join(os.tmpdir(), "page-"));
for (const name of ["reader.js", "module.js", "tar.js"]) {
  fs.cpSync(path.join(top, "web", name), path.join(room, name));
}
fs.writeFileSync(path.join(room, "package.json"), '{"type":"module"}');
const { Reader } = await import(pathToFileURL(path.join(room, "reader.js")));
const { tarParts } = await import(pathToFileURL(path.join(room, "tar.js")));
fs.rmSync(room, { recursive: true });
const compiled = await WebAssembly.compile(fs.readFileSync(module));

function fail(what) {
  console.error(`captures.mjs: ${what}`);
  process.exit(1);
}

function same(found, wanted, what) {
  if (found !== wanted) {
    const at = [...found].findIndex((one, index) => one !== wanted[index]);
    fail(`${what}: from ${at} on ${found.slice(at, at + 200)} and not ${wanted.slice(at, at + 200)}`);
  }
}

// What the program prints, whatever its status.
function printed(mode, file, keys, ...others) {
  const words = [mode, file, "--json", ...(keys ? ["--keylog", keys] : []), ...others];
  const options = { encoding: "utf8", maxBuffer: MOST_OUTPUT, stdio: ["ignore", "pipe", "ignore"] };
  try {
    return execFileSync(program, words, options);
  } catch (error) {
    return error.stdout;
  }
}

const blobOf = (file) => new Blob([fs.readFileSync(file)]);

const readerOf = (file, keys) => new Reader(compiled, blobOf(file), keys ? [blobOf(keys)] : []);

// Compares a capture with what the program prints of it. Returns how many packets it has.
async function compare(file) {
  const keys = [file.replace(/\.pcap(ng)?$/, ".keys")].find((one) => fs.existsSync(one));
  const reader = readerOf(file, keys);
  await reader.read(() => false);
  const name = path.basename(file);
  const objects = Buffer.concat((await reader.objects()).map((part) => Buffer.from(part))).toString();
  same(objects, printed("capture", file, keys), `packets of ${name}`);
  same(reader.checkLines(), printed("check", file, keys), `findings of ${name}`);
  const packets = objects.split("\n").filter((line) => line.includes('"index":'));
  same(`${reader.count}`, `${packets.length}`, `rows of ${name}`);
  const read = packets.map((line) => JSON.parse(line));
  rowsAgree(reader, read, name);
  streamsAgree(reader, read, name);
  await findingsAgree(reader, name);
  await tracesAgree(reader, file, keys);
  return packets.length;
}

// The traces are the files that the program writes; so are those in an archive, as tar unpacks it.
async function tracesAgree(reader, file, keys) {
  const name = path.basename(file);
  const folder = fs.mkdtempSync(path.join(os.tmpdir(), "traces-"));
  const [written, unpacked] = [path.join(folder, "written"), path.join(folder, "unpacked")];
  fs.mkdirSync(unpacked);
  printed("capture", file, keys, "--qlog", written);
  const traces = [...await reader.traces(name)];
  const files = traces.map(([number, parts]) => [`${name}.${number}.sqlog`, parts]);
  fs.writeFileSync(path.join(folder, "tar"), Buffer.concat(tarParts(files)));
  execFileSync("tar", ["-xf", path.join(folder, "tar"), "-C", unpacked]);
  const wanted = fs.existsSync(written) ? fs.readdirSync(written).sort() : [];
  same(fs.readdirSync(unpacked).sort().join(" "), wanted.join(" "), `the traces of ${name}`);
  for (const one of wanted) {
    const [found, other] = [unpacked, written].map((place) => fs.readFileSync(path.join(place, one), "utf8"));
    same(found, other, one);
  }
  for (const [number, parts] of traces) {
    const [[whose, alone], ...others] = await reader.traces(name, number);
    same(`${whose} ${others.length}`, `${number} 0`, `whose trace is asked for of ${name}`);
    const [one, all] = [alone, parts].map((bytes) => Buffer.concat(bytes).toString());
    same(one, all, `the trace of connection ${number} of ${name} alone`);
  }
  fs.rmSync(folder, { recursive: true });
}

// Each finding of the summary comes again with its packet.
async function findingsAgree(reader, name) {
  const { findings, finding_count: count } = reader.summary();
  same(`${findings.length}`, `${Math.min(count, 500)}`, `findings of ${name}`);
  for (const finding of findings.filter(({ row }) => row !== null)) {
    const { findings: there } = await reader.detail(finding.row);
    const isThere = there.some((one) => JSON.stringify(one) === JSON.stringify(finding));
    same(`${isThere}`, "true", `whether ${finding.rule} is found at row ${finding.row} of ${name}`);
  }
}

// Each stream has the bytes of its STREAM frames.
function streamsAgree(reader, packets, name) {
  const wanted = new Map();
  for (const { connection, sender, frames = [] } of packets) {
    for (const { id, offset, len } of frames.filter(({ frame, forbidden }) => frame === "STREAM" && !forbidden)) {
      const key = `${connection} ${id} ${sender}`;
      const stream = wanted.get(key) ?? { seen: new Set(), sent: 0 };
      Array.from({ length: len }, (_, at) => stream.seen.add(offset + at));
      stream.sent += len;
      wanted.set(key, stream);
    }
  }
  const found = reader.cards(0, 1e6).flatMap(({ connection, streams }) => (
    reader.streams(connection, 0, streams).map((one) => [`${connection} ${one.stream} ${one.sender}`, one])));
  const known = new Map(found);
  for (const [key, { seen, sent }] of wanted) {
    const { bytes, again } = known.get(key) ?? {};
    same(`${bytes} ${again}`, `${seen.size} ${sent - seen.size}`, `bytes of the stream ${key} of ${name}`);
  }
}

// Each row has what the packet's object has.
function rowsAgree(reader, packets, name) {
  const rows = reader.rows(0, packets.length);
  packets.forEach((packet, index) => {
    const row = rows[index];
    for (const member of ["index", "record", "connection", "sender", "number"]) {
      same(`${row[member]}`, `${packet[member]}`, `${member} of packet ${index} of ${name}`);
    }
  });
  const summary = reader.summary();
  same(`${summary.connections}`, `${reader.cards(0, 1e6).length}`, `connections of ${name}`);
}

// What isn't a capture ends in words.
async function rejects() {
  for (const [bytes, why] of [
    [[], ""], [[1, 2, 3, 4, 5], "the file is neither pcap nor pcapng"],
    [[0x0a, 0x0d, 0x0d, 0x0a, 8, 0, 0, 0, 0x4d, 0x3c, 0x2b, 0x1a], "a block of 8 bytes can't be read"],
  ]) {
    const reader = new Reader(compiled, new Blob([new Uint8Array(bytes)]), []);
    await reader.read(() => false);
    same(reader.fault, why, `a file of ${bytes.length} bytes`);
    same(`${reader.count}`, "0", "its rows");
  }
}

const files = fs.readdirSync(folder).filter((name) => /\.pcap(ng)?$/.test(name)).sort();
if (files.length === 0) {
  fail(`${folder} has no captures`);
}
let packets = 0;
for (const name of files) {
  packets += await compare(path.join(folder, name));
}
await rejects();
console.log(`${files.length} captures, ${packets} packets: as ${path.basename(program)} prints them`);
