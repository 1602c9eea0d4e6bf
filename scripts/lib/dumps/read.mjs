// Does what read.rs does, by the page's modules in the folder that is named. It also prints where the page's inputs
// aren't the pieces.
import { readFileSync, writeSync } from "node:fs";
import { pathToFileURL } from "node:url";

const modules = pathToFileURL(`${process.argv[2]}/`);
const { piecesOf } = await import(new URL("pieces.js", modules));
const { readEntries } = await import(new URL("entries.js", modules));
const { answerOf } = await import(new URL("slices.js", modules));

// How many characters a text has at least that is read for its time.
const LONG = 1 << 16;
const hexOf = (bytes) => Buffer.from(bytes).toString("hex");
const shown = ({ line, bytes, fault }) => `${line} ${bytes === null ? `error ${fault}` : hexOf(bytes)}\t`;

// The page leaves out blank lines; what can't be read may be base64 or a log; lines may belong together.
function pageOf(text, pieces) {
  const filled = pieces.filter(({ bytes, kind }) => bytes === null || bytes.length > 0 || kind !== "a line");
  const isOther = ({ form }) => form === "base64" || form.endsWith("log");
  const hasFault = pieces.some(({ fault }) => fault !== null);
  const hasDump = pieces.some(({ kind }) => kind === "a dump");
  const each = readEntries(text, "each").entries;
  const found = each.map(shown).join("");
  const isSame = found === filled.map(shown).join("") || filled.length === 0;
  const all = (inputs) => inputs.map(({ bytes }) => hexOf(bytes ?? [])).join("");
  const mayDiffer = hasFault && !hasDump && (each.some(isOther) || each.length === 1);
  const isJoined = !hasFault && pieces.every(({ kind }) => kind === "a line") && all(each) === all(filled);
  const auto = readEntries(text).entries;
  const isWhole = hasFault || all(auto) === all(filled);
  return (isSame || mayDiffer || isJoined) && isWhole ? "" : `but the page: ${found}`;
}

const input = readFileSync(0);
const decoder = new TextDecoder("utf-8", { ignoreBOM: true });
const out = [];
for (let at = 0; at < input.length;) {
  const end = at + 4 + input.readUInt32LE(at);
  const text = decoder.decode(input.subarray(at + 4, end));
  const pieces = answerOf(piecesOf(text));
  out.push(`${pieces.map(shown).join("")}${text.length < LONG ? pageOf(text, pieces) : ""}\n`);
  at = end;
}
const all = Buffer.from(out.join(""));
for (let at = 0; at < all.length;) {
  at += writeSync(1, all, at);
}
