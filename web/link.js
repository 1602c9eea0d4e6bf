// The part of the page's link after #: the choices, and the inputs.

import { toHex } from "./bytes.js";
import { readText } from "./entries.js";
import { VERSIONS } from "./formats.js";
import { GUESS } from "./guess.js";

// Longer inputs are left out of the link.
const MAX_LINKED = 65536;
const MAX_ID_LENGTH = 20;

export const DEFAULT_STATE = {
  mode: "frames", quinn: false, strict: false, idLength: 8, side: "client", versions: VERSIONS, grease: false, text: "",
  // How lines are read; which of the inputs is shown; whether another one is beside it, and which; what packets are
  // opened with, by their index; and the id from which keys of Initial packets follow.
  lines: "auto", at: 0, compare: false, other: "", opened: {}, firstId: "",
};
// What a link to captures begins with. It has the filter, and nothing of a capture.
const CAPTURES = "captures";
// Separates the digits of two inputs, and of what a packet is opened with.
const BETWEEN = ".";

// The versions in a list of hexadecimal numbers, or null.
export function versionsOf(text) {
  const words = text.split(/[\s,]+/).filter(Boolean);
  if (words.length > 64 || !words.every((word) => /^(0x)?[0-9a-f]{1,8}$/i.test(word))) {
    return null;
  }
  return words.map((word) => parseInt(word, 16));
}

export function versionsText(versions) {
  return versions.map((version) => version.toString(16)).join(" ");
}

// The choices that aren't the default.
function choiceWords(words, state) {
  if (state.quinn) {
    words.set("quinn", "1");
  }
  if (state.mode === "frames" && state.quinn && state.strict) {
    words.set("strict", "1");
  }
  if (state.mode === "datagram") {
    words.set("ids", state.idLength);
    if (versionsText(state.versions) !== versionsText(VERSIONS)) {
      words.set("versions", versionsText(state.versions));
    }
    if (state.quinn && state.grease) {
      words.set("grease", "1");
    }
  }
  if (state.mode === "params") {
    words.set("side", state.side);
  }
}

const hasFault = (entries) => entries.some(({ bytes }) => bytes === null);

// The inputs, or the text if one of them can't be read.
function inputWords(words, { text, lines }, entries) {
  if (!hasFault(entries)) {
    words.set("hex", entries.map(({ bytes }) => toHex(bytes)).join(BETWEEN));
    return;
  }
  words.set("text", text);
  if (lines !== "auto") {
    words.set("lines", lines);
  }
}

// What is shown beside the input, and what packets are opened with.
function furtherWords(words, { mode, compare, other, opened, firstId }) {
  if (compare) {
    const bytes = readText(other).bytes ?? [];
    words.set("with", bytes.length <= MAX_LINKED ? toHex(bytes) : "");
  }
  for (const [index, { mask, plain }] of mode === "datagram" ? Object.entries(opened) : []) {
    const digits = [mask, plain].map((text) => toHex(readText(text).bytes ?? []));
    words.append("open", [index, ...digits].join(BETWEEN));
  }
  if (mode === "datagram" && readText(firstId).bytes?.length > 0) {
    words.set("first", toHex(readText(firstId).bytes));
  }
}

// The fragment for a state, without its #. It has the inputs' bytes as digits; a text that isn't all bytes is in it
// unchanged. What is too long isn't in it. If the page guesses the mode, |guessed| is what it guessed.
export function fragmentOf(state, entries, guessed = state.mode) {
  const words = new URLSearchParams();
  words.set("read", state.mode);
  choiceWords(words, { ...state, mode: guessed });
  // A part of them would be another input.
  if (isLinked(entries, state.text)) {
    inputWords(words, state, entries);
  }
  if (state.at > 0 && entries.length > 1) {
    words.set("at", state.at);
  }
  furtherWords(words, { ...state, mode: guessed });
  return words.toString();
}

// Whether inputs are short enough for a link: their bytes or, if one has none, their text.
function isLinked(entries, text) {
  return (hasFault(entries) ? text.length : entries.reduce((sum, { bytes }) => sum + bytes.length, 0)) <= MAX_LINKED;
}

// What is said of a link that was copied.
export function saidOfLink(entries, text) {
  return isLinked(entries, text) ? "Copied" : "Copied, without the bytes: they are too many";
}

function openedOf(words) {
  const opened = {};
  for (const [index, mask = "", plain = ""] of words.getAll("open").map((word) => word.split(BETWEEN))) {
    opened[Number(index) || 0] = { mask, plain };
  }
  return opened;
}

const within = (number, most, otherwise) => (
  Number.isInteger(number) && number >= 0 && number <= most ? number : otherwise
);

// The state that a fragment describes; what it lacks, or says wrongly, is the default.
export function stateOf(fragment) {
  const words = new URLSearchParams(fragment);
  const state = { ...DEFAULT_STATE };
  if ([GUESS, "frames", "datagram", "params"].includes(words.get("read"))) {
    state.mode = words.get("read");
  }
  state.quinn = words.get("quinn") === "1";
  state.strict = words.get("strict") === "1";
  state.grease = words.get("grease") === "1";
  state.side = words.get("side") === "server" ? "server" : "client";
  state.idLength = within(Number(words.get("ids") ?? NaN), MAX_ID_LENGTH, DEFAULT_STATE.idLength);
  state.versions = (words.has("versions") && versionsOf(words.get("versions"))) || VERSIONS;
  const inputs = words.get("hex")?.split(BETWEEN);
  state.text = inputs?.join("\n") ?? words.get("text") ?? "";
  state.lines = inputs?.length > 1 ? "each" : ["one", "each"].find((one) => one === words.get("lines")) ?? "auto";
  state.at = within(Number(words.get("at") ?? NaN), Number.MAX_SAFE_INTEGER, 0);
  state.compare = words.has("with");
  state.other = words.get("with") ?? "";
  state.opened = openedOf(words);
  state.firstId = words.get("first") ?? "";
  return state;
}

// Whether a link is to captures, not to bytes.
export const isOfCaptures = (fragment) => fragment === CAPTURES || fragment.startsWith(`${CAPTURES}&`);

export const captureFragment = (filter) => (
  filter === "" ? CAPTURES : `${CAPTURES}&filter=${encodeURIComponent(filter)}`);

// The filter of a link to captures.
export const filterOf = (fragment) => new URLSearchParams(fragment).get("filter") ?? "";
