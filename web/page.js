// The page: reads the form, has the bytes read, and shows what they are.

import { Beside } from "./beside.js";
import { fromHex, toHex } from "./bytes.js";
import { copied, sayOn } from "./copied.js";
import { entriesOf, readText } from "./entries.js";
import { EXAMPLES } from "./examples.js";
import { Form } from "./form.js";
import { CAPTURE, GUESS, guessing } from "./guess.js";
import { helloBoxes } from "./hello.js";
import { otherMode } from "./hint.js";
import { initialPayloads } from "./initial.js";
import { inspect } from "./inspector.js";
import { INITIAL } from "./layout.js";
import { DEFAULT_STATE, fragmentOf, isOfCaptures, saidOfLink, stateOf } from "./link.js";
import { EntryList } from "./list.js";
import { Opened } from "./opened.js";
import { linesOf } from "./outline.js";
import { pictureOf, saveText } from "./picture.js";
import { printInto } from "./printed.js";
import { readBytes } from "./reading.js";
import { DRAWN, inTasks, untilFailure } from "./slices.js";
import { plainButton, revealViews, showFailure, showReading, showStatus, summaryOf } from "./status.js";
import { Views } from "./views.js";
import { count } from "./shown.js";

// In milliseconds.
const LINK_DELAY = 300;
// In how many inputs, and in how many packets of each, connection IDs are searched for.
const MOST_LOOKED_AT = 32;
// A text of more characters than this is read in steps, between which the browser does its other work.
const MOST_AT_ONCE = 1 << 18;
const NOT_COPIED = "Not copied; it is in the address bar";

const byId = (id) => document.getElementById(id);
const narrow = window.matchMedia("(max-width: 60rem)");
// How many bytes are in a row.
export const columns = () => (narrow.matches ? 8 : 16);

export class Page {
  // Each reading that is shown has its own library, since it asks for items when they are drawn.
  constructor([library, besideLibrary, listLibrary, ...openedLibraries]) {
    this.library = library;
    this.besideLibrary = besideLibrary;
    this.listLibrary = listLibrary;
    this.form = new Form(byId("form"), byId("other-input"), byId("held"), byId("first-id"));
    this.reading = null;
    const inspector = byId("inspector");
    this.views = new Views(byId("grid"), byId("outline"), (spot) => this.lit(spot));
    this.shortest = new Beside(byId("shortest-grid"), this.views, inspector);
    this.other = new Beside(byId("other-grid"), this.views, inspector);
    this.list = new EntryList(byId("list"), {
      summary: (bytes) => summaryOf(readBytes(listLibrary, bytes, this.chosen)), select: (at) => this.choose(at),
    });
    const boxes = {
      details: byId("open"), packets: byId("open-packets"), views: byId("plain"), title: byId("plain-title"),
      note: byId("plain-note"), grid: byId("plain-grid"), outline: byId("plain-outline"),
      hello: helloBoxes(byId, "hello"),
    };
    this.opened = new Opened(openedLibraries, boxes, {
      lit: (reading, spot) => inspect(inspector, reading, spot), changed: () => this.openedChanged(),
      ids: () => this.knownIds(listLibrary),
      payloads: (found) => initialPayloads(listLibrary, this.otherInputs(), this.chosen, found),
    });
  }

  start() {
    const form = byId("form");
    form.addEventListener("input", (event) => this.input(event.target));
    byId("input").addEventListener("paste", (event) => this.paste(event));
    form.addEventListener("submit", (event) => event.preventDefault());
    byId("other-input").addEventListener("input", () => this.update());
    byId("first-id").addEventListener("input", () => this.update());
    byId("clear").addEventListener("click", () => this.take({ ...this.form.state, text: "", ...NOTHING_FURTHER }));
    byId("link").addEventListener("click", () => this.copyLink());
    byId("save").addEventListener("click", () => this.save());
    byId("text").addEventListener("toggle", () => this.print());
    narrow.addEventListener("change", () => this.again());
    window.addEventListener("hashchange", () => this.follow());
    for (const { name, ...example } of EXAMPLES) {
      const take = () => this.take({ ...this.form.state, ...NOTHING_FURTHER, ...example });
      byId("examples").append(plainButton(name, take));
    }
    const { text } = EXAMPLES[0];
    // The part of the page's address after #, as far as it is about bytes.
    const fragment = window.location.hash.slice(1);
    this.fragment = isOfCaptures(fragment) ? "" : fragment;
    this.form.state = this.fragment ? stateOf(this.fragment) : { ...DEFAULT_STATE, mode: GUESS, text };
    this.update();
  }

  // ---- the form

  input(target) {
    if (target.name === "input") {
      this.form.text = target.value;
      this.form.forget();
    } else if (target.name === "joined") {
      this.form.forget();
      this.form.lines = target.checked ? "one" : "each";
    } else if (target.name === "side") {
      this.form.isSideChosen = true;
    }
    this.update();
  }

  paste(event) {
    // An example that stands there is replaced.
    const box = byId("input");
    if (EXAMPLES.some(({ text }) => text === box.value)) {
      box.select();
    }
    if (this.form.paste(event.clipboardData.getData("text/plain"))) {
      event.preventDefault();
      this.form.forget();
      this.update();
    }
  }

  take(state) {
    this.form.state = state;
    this.update();
    byId("input").scrollTop = 0;
  }

  change(mode) {
    this.take({ ...this.form.state, mode });
    // The button that was pressed is gone.
    byId("form").querySelector("[name=mode]:checked").focus();
  }

  // Takes the state from a link that was followed while the page is open.
  follow() {
    const fragment = window.location.hash.slice(1);
    if (fragment !== this.fragment && !isOfCaptures(fragment)) {
      this.fragment = fragment;
      this.take(stateOf(fragment));
    }
  }

  // ---- reading

  update() {
    const { state } = this.form;
    this.go(this.steps(state), state.text.length);
  }

  // Takes steps: all at once if there are few characters, else in tasks, each with as many as fit into a while.
  go(work, characters) {
    const steps = untilFailure(work, (error) => this.failed(error));
    this.going = steps;
    if (characters <= MOST_AT_ONCE) {
      while (!steps.next().done) { /* the next one */ }
      document.documentElement.dataset.state = "ready";
      return;
    }
    const end = () => { document.documentElement.dataset.state = "ready"; };
    document.documentElement.dataset.state = "reading";
    showReading(byId("status"), characters);
    requestAnimationFrame(() => setTimeout(() => inTasks(steps, () => this.going === steps, end)));
  }

  // Shows why a step failed, and nothing of what was read before.
  failed(error) {
    this.reading = null;
    ["entries", "views", "open", "inspector", "keys", "text"].forEach((id) => { byId(id).hidden = true; });
    showFailure(byId("status"), error);
  }

  *steps(state) {
    const isLength = Number.isInteger(state.idLength) && state.idLength >= 0 && state.idLength <= 20;
    const asked = isLength ? state : { ...state, idLength: DEFAULT_STATE.idLength };
    const found = { ...(yield* entriesOf(state.text, state.lines)), isBlank: state.text.trim() === "" };
    yield;
    const guessed = asked.mode === GUESS ? yield* guessing(this.listLibrary, found.entries, asked) : null;
    yield;
    Object.assign(this, { found, guessed, chosen: this.choicesOf(asked, guessed) });
    this.form.side = this.chosen.side;
    this.form.at = Math.min(state.at, this.found.entries.length - 1);
    byId("entries").hidden = this.found.entries.length < 2;
    this.list.show(byId("entries").hidden ? [] : this.found.entries, this.form.at);
    yield* this.read();
  }

  // The choices by which inputs are read: the mode that was guessed, unless one was chosen; so is the side that reads
  // parameters.
  choicesOf(asked, guessed) {
    const side = guessed && !this.form.isSideChosen ? guessed.side ?? asked.side : asked.side;
    return guessed ? { ...asked, mode: guessed.mode, side } : asked;
  }

  // Reads the input that was chosen. Captures are read elsewhere.
  *read() {
    const { bytes, fault } = this.found.entries[this.form.at];
    const { mode } = this.chosen;
    this.form.mark(!fault, this.found, mode);
    this.reading = bytes && mode !== CAPTURE ? readBytes(this.library, bytes, this.chosen) : null;
    yield;
    this.later();
    yield* this.show();
  }

  // Shows another one of the inputs.
  choose(at) {
    this.form.at = at;
    this.form.opened = {};
    this.go(this.read(), this.found.entries[at].bytes?.length ?? 0);
  }

  openedChanged() {
    this.views.outline.refresh();
    this.views.light();
    this.later();
  }

  // Connection IDs from which keys of Initial packets may be derived: the one that was entered, then the destination
  // connection IDs of Initial packets in all inputs that are searched.
  knownIds(library) {
    const { bytes } = readText(byId("first-id").value);
    const ids = new Set(bytes?.length > 0 ? [toHex(bytes)] : []);
    for (const entry of this.found.entries.slice(0, MOST_LOOKED_AT)) {
      const reading = entry.bytes && readBytes(library, entry.bytes, this.chosen);
      for (let index = 0; reading && index < Math.min(reading.whole, MOST_LOOKED_AT); index += 1) {
        const { kind, dcid, dcidlen } = reading.packet(index);
        if (kind === INITIAL) {
          ids.add(toHex(entry.bytes.subarray(dcid, dcid + dcidlen)));
        }
      }
    }
    return [...ids].map(fromHex);
  }

  // The other inputs, as far as they are searched.
  otherInputs() {
    const others = this.found.entries.filter(({ bytes }, at) => bytes !== null && at !== this.form.at);
    return others.slice(0, MOST_LOOKED_AT).map(({ bytes }) => bytes);
  }

  // Writes the link once nothing has changed for a while.
  later() {
    clearTimeout(this.timer);
    this.timer = setTimeout(() => this.writeLink(), LINK_DELAY);
  }

  writeLink() {
    clearTimeout(this.timer);
    if (window.location.hash.slice(1) !== this.fragment) {
      // Another link was just opened and will be followed.
      return;
    }
    this.fragment = fragmentOf(this.form.state, this.found.entries, this.chosen.mode);
    window.history.replaceState(null, "", `#${this.fragment}`);
  }

  async copyLink() {
    this.writeLink();
    const message = saidOfLink(this.found.entries, this.form.text);
    sayOn(byId("link"), (await copied(window.location.href)) ? message : NOT_COPIED);
  }

  async copyShortest(button, bytes) {
    if (await copied(toHex(bytes))) {
      sayOn(button, "Copied");
    } else {
      byId("text").open = true;
      byId("text").scrollIntoView({ block: "nearest" });
    }
  }

  save() {
    const { text } = summaryOf(this.reading);
    const title = `${text[0].toUpperCase()}${text.slice(1)}.`;
    const { box, differs } = this.views.grid;
    saveText(pictureOf(this.reading, box, columns(), title, differs), "image/svg+xml", "quic-bytes.svg");
  }

  // ---- showing

  // Reads and shows again, unless a reading is under way.
  again() {
    if (document.documentElement.dataset.state === "ready") {
      this.go(this.show(), 0);
    }
  }

  *show() {
    const { reading } = this;
    byId("views").hidden = reading === null || reading.bytes.length === 0;
    byId("keys").hidden = byId("views").hidden;
    // quic-show reads as quinn-proto does.
    byId("text").hidden = reading === null || !this.chosen.quinn;
    showStatus(byId("status"), reading, this.found, this.form.at, {
      go: (place) => this.goTo(place),
      other: reading && !this.guessed && otherMode(this.listLibrary, reading, this.chosen),
      change: (mode) => this.change(mode), guessed: this.guessed,
      capture: ({ bytes }) => this.onCapture(bytes, this.guessed.format),
    });
    if (reading) {
      byId("items-title").textContent = { frame: "Frames", packet: "Packets", parameter: "Parameters" }[reading.unit];
      this.views.show(reading, columns());
    }
    revealViews();
    yield DRAWN;
    yield* this.showBeside();
    yield;
    this.opened.show(reading?.unit === "packet" ? reading : null, columns(), this.form.opened);
    if (reading?.unit === "packet") {
      this.views.outline.refresh();
    }
    this.print();
    this.views.light();
  }

  goTo(place) {
    const { bad, count: items, bytes } = this.reading;
    const field = bad < items ? this.reading.item(bad).fields.findIndex((one) => one.fault) : -1;
    const { views } = this;
    views.select(field >= 0 ? views.spotOf(bad, field) : views.spotAt(Math.min(place, bytes.length - 1)));
    byId("grid").focus({ preventScroll: true });
    byId("views").scrollIntoView({ block: "nearest" });
  }

  // The other input, if one is to be shown beside the bytes; else their shortest form.
  *showBeside() {
    const { reading } = this;
    const isOther = this.form.state.compare && reading !== null;
    this.shortest.clear();
    this.other.clear();
    byId("other").hidden = !isOther;
    byId("views").classList.toggle("compared", isOther);
    if (isOther) {
      byId("shortest").hidden = true;
      yield* this.showOther();
    } else {
      yield* this.showShortest();
    }
  }

  *showOther() {
    const { entries: [{ bytes, fault }] } = yield* entriesOf(this.form.state.other, "one");
    byId("other-input").setAttribute("aria-invalid", Boolean(fault));
    const isShown = bytes !== null && bytes.length > 0 && this.reading.bytes.length > 0;
    byId("other-grid").hidden = !isShown;
    if (!isShown) {
      byId("other-note").textContent = fault ? `No bytes: ${fault}.` : "Paste another input of the same kind.";
      return;
    }
    const reading = readBytes(this.besideLibrary, bytes, this.chosen);
    yield;
    yield* this.other.show(reading, columns(), false);
    const { counts: [here, there], isRough } = this.other.comparison;
    const differ = `${count(here, "byte")} of the first and ${there} of this one`;
    byId("other-note").textContent = `${summaryOf(reading).text}. ${here + there === 0 ? "The same bytes."
      : isRough ? `Too many changes to find each: ${differ} are in parts that differ.` : `${differ} differ.`}`;
  }

  *showShortest() {
    const { reading } = this;
    const canonical = reading?.unit === "frame" ? reading.canonical() : { bytes: null };
    yield;
    byId("shortest").hidden = canonical.bytes === null;
    if (canonical.bytes === null) {
      return;
    }
    const fewer = reading.bytes.length - canonical.bytes.length;
    byId("shortest-grid").hidden = fewer === 0;
    if (fewer === 0) {
      byId("shortest-note").replaceChildren("This payload is its own shortest form.");
      return;
    }
    const copy = plainButton("Copy it", () => this.copyShortest(copy, canonical.bytes));
    const size = `${count(canonical.bytes.length, "byte")}, ${fewer} fewer, with the same frames in the same order. `;
    byId("shortest-note").replaceChildren(size, copy);
    const shortest = readBytes(this.besideLibrary, canonical.bytes, { ...this.chosen, mode: "frames" });
    yield;
    yield* this.shortest.show(shortest, columns(), true);
  }

  // What quic-show prints, if that panel is open.
  print() {
    byId("printed").replaceChildren();
    if (byId("text").open && this.reading) {
      printInto(byId("printed"), this.reading, this.chosen);
    }
  }

  // Shows what is lit in the views, which keep the last reading, and lights what corresponds to it beside them.
  lit(one) {
    const spot = this.reading && one;
    this.shortest.light(spot);
    this.other.light(spot);
    inspect(byId("inspector"), this.reading, spot);
    if (spot && this.reading.unit === "packet") {
      this.opened.follow(spot, spot.field < 0 ? null : linesOf(this.reading.item(spot.item))[spot.field]);
    }
  }
}

const NOTHING_FURTHER = { lines: "auto", at: 0, compare: false, other: "", opened: {}, firstId: "" };
