// Compares what the page reads with the cases in rust/program/tests/dumps, which have the pieces of a text, and with
// its own of texts that it reads in other ways than the programs. It uses a copy of web/'s modules, since node takes
// *.js files for modules only if a package.json says so.
//
// node web/test/dumps.mjs TOP
import { cpSync, mkdtempSync, readFileSync, readdirSync, rmSync, writeFileSync } from "node:fs";
import { tmpdir } from "node:os";
import { join } from "node:path";
import { pathToFileURL } from "node:url";

const top = process.argv[2];
const dumps = join(top, "rust", "program", "tests", "dumps");
const room = mkdtempSync(join(tmpdir(), "page-"));
for (const name of readdirSync(join(top, "web")).filter((file) => file.endsWith(".js"))) {
  cpSync(join(top, "web", name), join(room, name));
}
writeFileSync(join(room, "package.json"), '{"type":"module"}');
const { readEntries } = await import(pathToFileURL(join(room, "entries.js")));
const { piecesOf } = await import(pathToFileURL(join(room, "pieces.js")));
const { toHex } = await import(pathToFileURL(join(room, "bytes.js")));
const { answerOf } = await import(pathToFileURL(join(room, "slices.js")));
rmSync(room, { recursive: true });

let [count, failed] = [0, 0];
function same(name, found, wanted) {
  count += 1;
  if (JSON.stringify(found) !== JSON.stringify(wanted)) {
    failed += 1;
    console.log(`${name}: ${JSON.stringify(found)} and not ${JSON.stringify(wanted)}`);
  }
}

const shown = ({ line, bytes, fault }) => `${line} ${bytes === null ? `error ${fault}` : toHex(bytes)}`.trim();

for (const part of readFileSync(join(dumps, "cases"), "utf8").split("\n== ").slice(1)) {
  const [name, ...lines] = part.split("\n").filter((line) => line !== "");
  const texts = lines.filter((line) => "|<".includes(line[0])).map((line) => (line[0] === "|" ? `${line.slice(1)}\n`
    : readFileSync(join(dumps, line.slice(1).trim()), "utf8")));
  const wanted = lines.filter((line) => !"|<".includes(line[0]));
  const text = texts.join("");
  same(name, answerOf(piecesOf(text)).map(shown), wanted);
  // Apart from blank lines, the page shows these pieces, unless some can't be read and are base64 or of a log.
  const { entries } = readEntries(text, "each");
  if (entries.every(({ form }) => form !== "base64" && !form.endsWith("log"))) {
    same(`${name}, in the page`, entries.map(shown), wanted.filter((line) => line.includes(" ")));
  }
}

// How the lines of a text are read if the page decides: together or each, and what it calls that.
const OTHERS = [
  ["AQYA\n", ["1 010600"], "base64"], ["AQYA\nFiMw", ["1 010600162330"], "base64"],
  ["AQYA\n\nFiMwNA==\n", ["1 010600", "3 16233034"], "base64"],
  ["12:01 sent 0x01060016\nnothing\n12:02 sent 0x23307834\n", ["1 01060016", "3 23307834"],
    "hexadecimal in a line of a log"],
  ["0106\n0016\n23\n", ["1 0106001623"], "hexadecimal"], ["01060\n01623\n", ["1 0106001623"], "hexadecimal"],
  ["01\n0600\n", ["1 01", "2 0600"], "hexadecimal"], ["0106\n0016\n\n23\n", ["1 01060016", "4 23"], "hexadecimal"],
  ['{"a":[1,2,3]}', ["1 error an odd number of digits, 1, in column 3"], "a list of bytes"],
];
for (const [text, wanted, form] of OTHERS) {
  const { entries } = readEntries(text);
  same(JSON.stringify(text), entries.map(shown), wanted);
  same(`how ${JSON.stringify(text)} is read`, entries.map((entry) => entry.form), wanted.map(() => form));
}

// Time that grows with the square of the text is hours here. It is the processor's, which other work doesn't lengthen.
const begin = process.cpuUsage();
const many = 200000;
for (const part of ["7,\n", "[\n", "/*", "= ", "0000: ", "b'\\x01'\n", "#\n", "01 "]) {
  same(`${part} often`, readEntries(`[\n${part.repeat(many)}7]\n`).entries.length > 0, true);
  same(`only ${part} often`, readEntries(part.repeat(many)).entries.length > 0, true);
}
same("a minute or less", process.cpuUsage(begin).user < 60e6, true);
console.log(`the page reads texts as it should: ${count} checked, ${failed} wrong`);
process.exitCode = failed > 0 || count < 200 ? 1 : 0;
