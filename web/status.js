// The line that says how reading ended.

import { CAPTURE, GUESSES } from "./guess.js";
import { typeName } from "./names.js";
import { element } from "./rows.js";
import { count } from "./shown.js";

function errorText({ place, reason, type, version, allowed, note, code, section }) {
  const what = (type ?? null) === null ? "" : ` in ${typeName(type)}`;
  const which = (version ?? null) === null ? "" : ` ${version.toString(16)}`;
  const text = [element("strong", "", `Error at byte ${place}: ${reason}${which}${what}.`)];
  text.push(allowed ? ` Allowed is ${allowed}.` : note ? ` ${note}` : "");
  text.push(code ? ` ${code}, ${section}. ` : ` ${section[0].toUpperCase()}${section.slice(1)}. `);
  return text;
}

// A short description of a reading, and whether there is an error.
export function summaryOf(reading) {
  const { error, bad, whole, unit } = reading;
  const items = count(Math.min(bad, whole), unit);
  if (!error) {
    return { text: `${items} in ${count(reading.bytes.length, "byte")}`, isBad: false };
  }
  const what = (error.type ?? null) === null ? "" : ` in ${typeName(error.type)}`;
  return { text: `error at byte ${error.place}: ${error.reason}${what}`, isBad: true };
}

// Which of several inputs is shown, if there are several.
function whichText({ entries, left }, at) {
  const without = left > 0 ? ` ${count(left, "line")} without bytes ${left === 1 ? "is" : "are"} left out.` : "";
  return entries.length > 1 ? ` Input ${at + 1} of ${entries.length}.${without}` : without;
}

// Says that a long text is being read.
export function showReading(box, characters) {
  box.className = "status";
  box.replaceChildren(`Reading ${characters} characters …`);
}

// Shows the views that are hidden while a long text is read, before what comes beside them: both at once would take a
// tenth of a second.
export function revealViews() {
  const { dataset } = document.documentElement;
  if (dataset.state === "reading") {
    dataset.state = "showing";
  }
}

// Says that the page itself has failed. If the module has stopped, it fails from then on.
export function showFailure(box, error) {
  console.error(error);
  box.className = "status bad";
  box.replaceChildren(element("strong", "", "This page has failed"), `: ${error.message}. Load it again.`);
}

export function plainButton(text, click) {
  const button = element("button", "plain", text, { type: "button" });
  button.addEventListener("click", click);
  return button;
}

const OTHERS = { frames: "a payload", datagram: "a datagram" };

// What the page guessed that the inputs are, if it did, with buttons for the other modes and for a capture.
function guessParts(guessed, entry, { change, capture }) {
  if (!guessed) {
    return [];
  }
  const { mode, format } = guessed;
  const others = Object.entries(GUESSES).filter(([one]) => one !== mode)
    .flatMap(([one, words]) => [" ", plainButton(`Read as ${words}`, () => change(one))]);
  const what = mode === CAPTURE ? `a capture in the format ${format}` : GUESSES[mode];
  const open = mode === CAPTURE ? [" ", plainButton("Open the capture", () => capture(entry))] : [];
  return [` Guessed: ${what}.`, ...open, ...others];
}

// |reading| is null if the chosen input isn't bytes, or is a capture; |on| has go(place), which goes to an offset;
// change(mode); other, the mode that reads what is rejected, if there is one; guessed, what the page guessed, if it
// did; and capture(entry), which opens an input as a capture.
export function showStatus(box, reading, found, at, on) {
  const { go, other, change } = on;
  const { fault, form } = found.entries[at];
  box.className = `status ${fault || reading?.error ? "bad" : "good"}`;
  const which = whichText(found, at);
  if (fault) {
    box.replaceChildren(element("strong", "", "No bytes"), `: ${fault}.${which}`);
    return;
  }
  if (found.isBlank) {
    box.className = "status";
    box.replaceChildren("Nothing to read yet: paste bytes above, or try one of the examples.");
    return;
  }
  const guess = guessParts(on.guessed, found.entries[at], on);
  if (reading === null) {
    box.className = "status good";
    box.replaceChildren(`${count(found.entries[at].bytes.length, "byte")}, read as ${form}.`, ...guess);
    return;
  }
  const bytes = count(reading.bytes.length, "byte");
  const from = reading.bytes.length > 0 ? `, read as ${form}` : "";
  const run = reading.hasRun ? " (a run of PADDING is one)" : "";
  const items = count(Math.min(reading.bad, reading.whole), reading.unit) + run;
  if (!reading.error) {
    box.replaceChildren(`${items} in ${bytes}${from}.${which}`, ...guess);
    return;
  }
  const before = ` ${items} before it, in ${bytes}${from}.${which} `;
  const parts = [...errorText(reading.error), before];
  if (reading.bytes.length > 0) {
    parts.push(plainButton("Show it", () => go(reading.error.place)));
  }
  if (other) {
    parts.push(" ", plainButton(`Read it as ${OTHERS[other]}`, () => change(other)));
  }
  box.replaceChildren(...parts, ...guess);
}
