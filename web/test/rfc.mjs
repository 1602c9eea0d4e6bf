// What the page reads in the lists of quic_replay and the inputs of vectors/, as RFC 9000 has it, is what quic-wire
// prints: where items begin and end, why reading ends and at which field, and the shortest form. As dumps.mjs it uses a
// copy of web/'s modules.
//
// node web/test/rfc.mjs TOP MODULE QUIC_WIRE
import { execFileSync } from "node:child_process";
import fs from "node:fs";
import os from "node:os";
import path from "node:path";
import { pathToFileURL } from "node:url";

const [top, module, program] = process.argv.slice(2);
const room = fs.mkdtempSync(path.join(os.tmpdir(), "page-"));
for (const name of fs.readdirSync(path.join(top, "web")).filter((file) => file.endsWith(".js"))) {
  fs.cpSync(path.join(top, "web", name), path.join(room, name));
}
fs.writeFileSync(path.join(room, "package.json"), '{"type":"module"}');
const { fromHex, toHex } = await import(pathToFileURL(path.join(room, "bytes.js")));
const { VERSIONS } = await import(pathToFileURL(path.join(room, "formats.js")));
const { Library } = await import(pathToFileURL(path.join(room, "library.js")));
const { readBytes } = await import(pathToFileURL(path.join(room, "reading.js")));
fs.rmSync(room, { recursive: true });
const [library] = await Library.load(fs.readFileSync(module), 1);

const MOST_OUTPUT = 1 << 28;
const CUT = "packet too short to contain payload length";
// What the program is asked, and the page's choices for the same.
const MODES = [
  ["payload", ["frames"], { mode: "frames" }], ["payload", ["canon"], { mode: "frames", isShortest: true }],
  ["datagram", ["datagram", "--grease", "--cid-len", "8"], { mode: "datagram", idLength: 8, versions: VERSIONS }],
  ["params", ["params", "--side", "client"], { mode: "params", side: "client" }],
  ["params", ["params", "--side", "server"], { mode: "params", side: "server" }],
];

// What a program prints, whatever its status.
function printed(command, words, input = "") {
  const options = { input, encoding: "utf8", maxBuffer: MOST_OUTPUT, stdio: ["pipe", "pipe", "ignore"] };
  try {
    return execFileSync(command, words, options);
  } catch (error) {
    return error.stdout;
  }
}

function linesOf(form) {
  const name = `${form.replace(/s$/, "")}s.in`;
  const list = fs.readFileSync(path.join(top, "crates", "quic_replay", "data", name), "utf8");
  const inputs = printed("python3", [path.join(top, "vectors", "inputs.py"), form]);
  return `${list}\n${inputs}`.split("\n").filter((line) => /^([0-9a-f]{2})+$/.test(line));
}

// What the page reads, as the program's objects say it: items, and the error.
function readOf(bytes, { isShortest, ...choices }) {
  const reading = readBytes(library, bytes, choices);
  if (isShortest) {
    const { bytes: shortest } = reading.canonical();
    return { items: shortest ? toHex(shortest) : "", error: reading.error?.reason ?? "", place: reading.error?.place };
  }
  const items = Array.from({ length: Math.min(reading.bad, reading.whole) }, (_, index) => (
    `${reading.begin(index)}..${reading.end(index)}`));
  return { items: items.join(" "), error: reading.error?.reason ?? "", place: reading.error?.place, bad: reading };
}

function wantedOf(objects, { isShortest, mode }) {
  const items = objects.filter(({ error }) => error === undefined);
  const failure = objects.find(({ error }) => error !== undefined);
  const error = failure?.error ?? "";
  if (isShortest) {
    return { items: items.map(({ data }) => data).join(" "), error, place: failure?.field_at };
  }
  const places = mode === "params" ? "" : items.map(({ start, end }) => `${start}..${end}`).join(" ");
  return { items: places, error, place: failure?.field_at, offset: failure?.offset };
}

// What differs, or nothing.
function difference(read, wanted, { mode }) {
  if (mode === "params") {
    // The program names the entry, and prints no items.
    const begin = read.bad.error ? read.bad.begin(read.bad.bad) : undefined;
    return read.error === wanted.error && begin === wanted.offset ? "" : `${read.error} at ${begin}`;
  }
  const isSame = wanted.error.startsWith(read.error) && (read.error === "") === (wanted.error === "");
  // Of a packet that is cut off the program names the Length, and the page points at what follows it.
  const isThere = wanted.place === undefined || read.place === wanted.place || read.error === CUT;
  return read.items === wanted.items && isSame && isThere ? "" : `${read.items} ${read.error} at ${read.place}`;
}

let [count, failed] = [0, 0];
for (const [form, words, choices] of MODES) {
  const lines = linesOf(form);
  const byLine = new Map();
  for (const text of printed(program, [...words, "--json"], `${lines.join("\n")}\n`).split("\n").filter(Boolean)) {
    const object = JSON.parse(text);
    byLine.set(object.line, [...byLine.get(object.line) ?? [], object]);
  }
  lines.forEach((line, at) => {
    const objects = byLine.get(at + 1) ?? [];
    // In front of a datagram the program reads Ethernet, IP and UDP, which the page doesn't.
    if (objects.some(({ packet, error = "" }) => packet === "udp" || error.includes("IP packet"))) {
      return;
    }
    count += 1;
    const wanted = wantedOf(objects, choices);
    let what = "";
    try {
      what = difference(readOf(fromHex(line), choices), wanted, choices);
    } catch (error) {
      what = `${error}`;
    }
    if (what) {
      failed += 1;
      console.log(`${words.join(" ")} ${line}: ${what}, and not ${wanted.items} ${wanted.error} at ${wanted.place}`);
    }
  });
}
console.log(`${count} inputs as RFC 9000 reads them: ${failed} differ from ${path.basename(program)}`);
process.exit(failed > 0 ? 1 : 0);
