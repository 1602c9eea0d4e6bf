// What the page guesses of bytes: those of the lists of quic_replay and the inputs of vectors/, each of a known form,
// of which the great majority must be right; and what stacks sent in the captures of a folder, datagrams, payloads and
// lists of transport parameters, nearly all of which must be. As dumps.mjs it uses a copy of web/'s modules.
//
// node web/test/guess.mjs TOP MODULE FOLDER
import { execFileSync } from "node:child_process";
import fs from "node:fs";
import os from "node:os";
import path from "node:path";
import { pathToFileURL } from "node:url";

// The least part that must be right.
const [LEAST_OF_LISTS, LEAST_OF_CAPTURES] = [0.94, 0.99];
const [top, module, folder] = process.argv.slice(2);
const room = fs.mkdtempSync(path.join(os.tmpdir(), "page-"));
for (const name of fs.readdirSync(path.join(top, "web")).filter((file) => file.endsWith(".js"))) {
  fs.cpSync(path.join(top, "web", name), path.join(room, name));
}
fs.writeFileSync(path.join(room, "package.json"), '{"type":"module"}');
const part = (name) => import(pathToFileURL(path.join(room, name)));
const { fromHex } = await part("bytes.js");
const { readEntries } = await part("entries.js");
const { CAPTURE, captureFormat, guessOf } = await part("guess.js");
const { Library } = await part("library.js");
const { DEFAULT_STATE, fragmentOf, stateOf } = await part("link.js");
const { Reader } = await part("reader.js");
fs.rmSync(room, { recursive: true });
const compiled = await WebAssembly.compile(fs.readFileSync(module));
const [library] = await Library.load(fs.readFileSync(module), 1);

let failed = 0;
function check(isRight, what) {
  if (!isRight) {
    failed += 1;
    console.log(`guess.mjs: ${what}`);
  }
}

// Of each form how many there are, and how many are guessed.
const tallies = new Map();
function tally(group, form, bytes) {
  const key = `${group}, ${form}`;
  const one = tallies.get(key) ?? { all: 0, right: 0, wrong: [] };
  const { mode } = guessOf(library, [{ bytes }], DEFAULT_STATE);
  one.all += 1;
  one.right += mode === form ? 1 : 0;
  if (mode !== form) {
    one.wrong.push(`${Buffer.from(bytes).toString("hex").slice(0, 60)} as ${mode}`);
  }
  tallies.set(key, one);
}

const LISTS = [["payload", "frames"], ["datagram", "datagram"], ["params", "params"]];
for (const [form, mode] of LISTS) {
  const name = `${form.replace(/s$/, "")}s.in`;
  const list = fs.readFileSync(path.join(top, "crates", "quic_replay", "data", name), "utf8");
  const inputs = execFileSync("python3", [path.join(top, "vectors", "inputs.py"), form], { encoding: "utf8" });
  const lines = `${list}\n${inputs}`.split("\n").filter((line) => /^([0-9a-f]{2})+$/.test(line));
  lines.forEach((line) => tally("lists", mode, fromHex(line)));
}

// What is in a capture: each datagram once, the payloads that were opened, and the lists in them.
async function ofCapture(file) {
  const keys = file.replace(/\.pcap(ng)?$/, ".keys");
  const [capture, ...logs] = [file, keys].filter(fs.existsSync).map((one) => new Blob([fs.readFileSync(one)]));
  const reader = new Reader(compiled, capture, logs);
  await reader.read(() => false);
  let record = -1;
  for (let index = 0; index < reader.count; index += 1) {
    const detail = await reader.detail(index);
    if (detail.record !== record) {
      tally("captures", "datagram", fromHex(detail.datagram));
      ({ record } = detail);
    }
    const { payload } = detail.packets.find((packet) => packet.index === index);
    if (payload) {
      tally("captures", "frames", fromHex(payload));
      const { list } = library.helloIn(fromHex(payload));
      if (list) {
        tally("captures", "params", list);
      }
    }
  }
  const bytes = new Uint8Array(await capture.arrayBuffer());
  const { mode, format } = guessOf(library, [{ bytes }], DEFAULT_STATE);
  check(mode === CAPTURE && file.endsWith(`.${format}`), `${path.basename(file)} is taken for ${mode} ${format}`);
}

const files = fs.readdirSync(folder).filter((name) => /\.pcap(ng)?$/.test(name)).sort();
check(files.length > 0, `${folder} has no captures`);
for (const name of files) {
  await ofCapture(path.join(folder, name));
}
for (const [key, { all, right, wrong }] of tallies) {
  const least = key.startsWith("lists") ? LEAST_OF_LISTS : LEAST_OF_CAPTURES;
  console.log(`${key}: ${right} of ${all}, ${(100 * right / all).toFixed(1)} %`);
  check(right >= least * all, `fewer than ${100 * least} % are right: ${wrong.slice(0, 20).join("; ")}`);
}
check(tallies.size === 6, `only ${[...tallies.keys()]}`);

// A capture in any of the ways in which bytes are written; bytes that only begin like one.
const small = fs.readFileSync(path.join(top, "rust", "capture", "tests", "data", "small.pcap"));
const dump = execFileSync("xxd", ["-g1"], { input: small, encoding: "utf8" });
for (const text of [small.toString("hex"), dump, small.toString("base64")]) {
  const { mode } = guessOf(library, readEntries(text).entries, DEFAULT_STATE);
  check(mode === CAPTURE, `a capture as ${text.slice(0, 40)} is taken for ${mode}`);
}
check(captureFormat(small.subarray(0, 4)) === null, "four bytes of a capture are one");
check(captureFormat(fromHex("0a0d0d0a1c0000004d3c2b1a")) === "pcapng", "pcapng");

// A link has a text that can't be read whole or not at all.
for (const text of ["?\n".repeat(20000), "?\n".repeat(40000)]) {
  const { text: linked } = stateOf(fragmentOf({ ...DEFAULT_STATE, text }, readEntries(text).entries));
  check([text, ""].includes(linked), `a link has ${linked.length} of ${text.length} characters`);
}
for (const other of ["01".repeat(65536), "01".repeat(65537)]) {
  const state = { ...DEFAULT_STATE, text: "01", compare: true, other };
  const { compare, other: linked } = stateOf(fragmentOf(state, readEntries("01").entries));
  const wanted = other.length > 2 * 65536 ? "" : other;
  check(compare && linked === wanted, `a link has ${linked.length} digits of another input of ${other.length}`);
}
// What was chosen stays: a link says whether the page guesses.
for (const mode of ["frames", "datagram", "params", "auto"]) {
  const state = { ...DEFAULT_STATE, mode, text: "c300000001" };
  check(stateOf(fragmentOf(state, readEntries(state.text).entries)).mode === mode, `a link keeps ${mode}`);
}
console.log(failed === 0 ? "the page guesses as it should" : `${failed} wrong`);
process.exit(failed > 0 ? 1 : 0);
