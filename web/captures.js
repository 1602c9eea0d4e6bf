// The page's second door: captures and key logs, which a worker reads, and what is found in them.

import { CaptureList } from "./capture-list.js";
import { pictureTitle, POINT } from "./chart.js";
import { addCards, CARDS, moreText, unopenedTexts } from "./connections.js";
import { DatagramView } from "./datagram.js";
import { showFindings } from "./findings.js";
import { sorted } from "./given.js";
import { helloBoxes } from "./hello.js";
import { saveBlob, saveText } from "./picture.js";
import { count } from "./shown.js";
import { Timeline } from "./timeline.js";

// After how many milliseconds the list is drawn again: together with the overview that takes WebKit 0.1 s.
const AFTER_OVERVIEW = 100;
const NO_WORKERS = "This browser has no workers, in which captures are read.";

// What a browser says of an error, in a sentence of the page.
const withoutStop = (text) => text.replace(/\.+$/, "");
const sizeText = (bytes) => (bytes < 1e6 ? `${(bytes / 1e3).toFixed(1)} kB` : `${(bytes / 1e6).toFixed(1)} MB`);

export class Captures {
  // |byId| finds elements; |worker| makes a worker; |libraries| read the bytes that are shown; |columns| says how many
  // bytes are in a row.
  constructor(byId, { module, worker, libraries, columns }) {
    Object.assign(this, { byId, module, makeWorker: worker, columns });
    // |run| is the number of the capture that is read: answers about another one are late. |given| are the files that
    // it is read from; |isHeld| says whether the worker can't read files, so that the page reads them for it.
    Object.assign(this, { worker: null, file: null, keyLogs: [], summary: null, run: 0, given: [], isHeld: false });
    // How often files were given, and which time those were whose capture is shown; why others weren't taken meanwhile.
    Object.assign(this, { takes: 0, shownTake: 0, refusal: "" });
    const boxes = {
      list: byId("packets"), head: byId("packets-head"), filter: byId("filter"), note: byId("filter-note"),
    };
    this.list = new CaptureList(boxes, (type, message) => this.ask(type, message), ({ index }) => this.open(index));
    this.timeline = new Timeline(byId("timeline"), {
      choose: (index) => this.list.goTo(index), spot: (text) => { byId("timeline-spot").textContent = text; },
    });
    this.datagram = new DatagramView({
      section: byId("packet"), title: byId("packet-title"), note: byId("packet-note"), broken: byId("packet-broken"),
      views: byId("packet-views"), grid: byId("packet-grid"), outline: byId("packet-outline"),
      payload: byId("payload"), payloadTitle: byId("payload-title"), payloadGrid: byId("payload-grid"),
      payloadOutline: byId("payload-outline"), inspector: byId("packet-inspector"),
      hello: helloBoxes(byId, "packet-hello"),
    }, libraries);
  }

  start() {
    const { byId } = this;
    byId("files").addEventListener("change", (event) => this.take([...event.target.files]));
    byId("stop").addEventListener("click", () => this.ask("stop"));
    byId("save-objects").addEventListener("click", () => this.save("save"));
    byId("save-traces").addEventListener("click", () => this.save("saveTraces", { connection: null }));
    byId("save-timeline").addEventListener("click", () => this.saveTimeline());
    byId("more-connections").addEventListener("click", () => this.askCards());
    byId("whole-timeline").addEventListener("click", () => this.timeline.all());
    const page = document.documentElement;
    page.addEventListener("dragover", (event) => this.drag(event, true));
    page.addEventListener("dragleave", (event) => this.drag(event, false));
    page.addEventListener("drop", (event) => this.drop(event));
    this.say("No capture yet. A pcapng file may contain its keys; other captures need a key log (SSLKEYLOGFILE).");
  }

  // Starts the worker, which gets the module's bytes.
  begin() {
    if (typeof Worker === "undefined") {
      throw new Error(NO_WORKERS);
    }
    const worker = this.makeWorker();
    this.worker = worker;
    worker.addEventListener("message", ({ data: { type, run, ...message } }) => {
      if (run === this.run) {
        this.receive(type, message);
      }
    });
    worker.addEventListener("error", ({ message }) => {
      // The next capture gets another one.
      worker.terminate();
      this.worker = null;
      this.failed({ text: message || "the worker doesn’t start" });
    });
    this.ask("start", { module: this.module });
  }

  ask(type, message = {}) {
    this.worker?.postMessage({ type, run: this.run, ...message });
  }

  receive(type, message) {
    const takers = {
      progress: () => this.progress(message), ready: () => this.ready(message),
      failed: () => this.failed(message), filtered: () => this.list.filtered(message),
      rows: () => this.list.take(message), position: () => this.list.found(message),
      cards: () => this.cards(message), points: () => this.points(message), detail: () => this.detail(message),
      saved: () => this.saved(message), unsaved: () => this.unsaved(message.why), piece: () => this.piece(message),
      cancelled: () => this.cancelled(message), streams: () => this.streams.get(message.connection)?.take(message),
    };
    takers[type]();
  }

  // Says how reading goes or how it went, beside why other files weren't taken.
  say(text, isBad = false) {
    const box = this.byId("capture-status");
    box.classList.toggle("bad", isBad || this.refusal !== "");
    box.textContent = [this.refusal, text].filter(Boolean).join(" ");
  }

  // Says again how reading went.
  sayWhole() {
    this.say(this.said.text, this.said.isBad);
  }

  get state() {
    return document.documentElement.dataset.capture;
  }

  set state(state) {
    document.documentElement.dataset.capture = state;
    const isBusy = state === "reading" || state === "saving";
    // Screen readers say what is there at the end.
    this.byId("capture-status").setAttribute("aria-busy", isBusy);
    this.showStop(isBusy);
  }

  showStop(isShown) {
    this.byId("stop").hidden = !isShown;
    this.byId("progress").hidden = !isShown;
  }

  // ---- files

  drag(event, isOver) {
    if (event.dataTransfer?.types.includes("Files")) {
      event.preventDefault();
      this.byId("drop").classList.toggle("over", isOver);
    }
  }

  drop(event) {
    this.drag(event, false);
    const files = [...event.dataTransfer?.files ?? []];
    if (files.length > 0) {
      this.byId("door-captures").click();
      this.take(files);
    }
  }

  // Takes files: a capture, and key logs, which stay for the captures after it.
  async take(files) {
    this.takes += 1;
    this.refusal = "";
    const number = this.takes;
    try {
      const { captures, keyLogs } = await sorted(files);
      const isAgain = ({ name }) => keyLogs.some((log) => log.name === name);
      this.keyLogs = [...this.keyLogs.filter((log) => !isAgain(log)), ...keyLogs];
      // Files that were given before these may take longer to be sorted.
      const isShown = captures.length > 0 && number > this.shownTake;
      if (isShown) {
        [this.file, this.shownTake] = [captures[0], number];
        this.showFiles(captures);
      }
      if (!this.file) {
        this.say(`${this.keysText()}. Add the capture.`);
      } else if (isShown || keyLogs.length > 0) {
        this.read();
      }
    } catch (error) {
      this.rejected(error.message);
    }
  }

  // Says why files aren't taken. The capture that is there stays.
  rejected(text) {
    this.refusal = `Not read: ${withoutStop(text)}.`;
    this.say("");
    if (this.state !== "reading" && this.summary === null) {
      this.state = "failed";
    }
  }

  keysText() {
    return this.keyLogs.length === 0 ? "no key log" : `with ${this.keyLogs.map(({ name }) => name).join(", ")}`;
  }

  // Of several captures one is shown; the others are a click away.
  showFiles(captures) {
    const box = this.byId("other-captures");
    box.hidden = captures.length < 2;
    box.replaceChildren(...captures.map((file) => {
      const button = document.createElement("button");
      Object.assign(button, { type: "button", textContent: file.name });
      button.addEventListener("click", () => {
        this.file = file;
        this.read();
      });
      return button;
    }));
  }

  read() {
    if (this.worker === null) {
      this.begin();
    }
    this.summary = null;
    this.run += 1;
    this.list.forget();
    this.datagram.hide();
    for (const id of ["overview", "found", "table", "times"]) {
      this.byId(id).hidden = true;
    }
    this.state = "reading";
    this.byId("progress").value = 0;
    this.say(`Reading ${this.file.name} …`);
    this.given = [this.file, ...this.keyLogs];
    this.ask("open", this.isHeld ? { sizes: this.given.map(({ size }) => size) } : { files: this.given });
  }

  // Reads a piece of a file for the worker.
  async piece({ number, file, from, to }) {
    try {
      const bytes = await this.given[file].slice(from, to).arrayBuffer();
      this.worker.postMessage({ type: "piece", number, bytes }, [bytes]);
    } catch ({ name, message }) {
      this.ask("piece", { number, why: message, name });
    }
  }

  progress({ read, size, count: packets }) {
    this.byId("progress").value = read / size;
    const of = `${sizeText(read)} of ${sizeText(size)}`;
    if (packets === undefined) {
      this.say(`Reading again: ${of}`);
      this.showStop(true);
      return;
    }
    this.say(`${count(packets, "packet")} in ${of}`);
    if (this.byId("table").hidden && packets > 0) {
      this.byId("table").hidden = false;
      this.list.show(packets);
    }
  }

  // |what| is the message after which something failed.
  failed({ text, name, what = "open" }) {
    if (what === "open" && name === "NotReadableError" && !this.isHeld) {
      // WebKit lets no worker of a page opened as a file read files.
      this.isHeld = true;
      this.read();
    } else if (what.startsWith("save")) {
      this.unsaved(text);
    } else {
      this.say(`Not read: ${withoutStop(text)}.`, true);
      this.state = what === "open" ? "failed" : this.state;
    }
  }

  cancelled({ what }) {
    if (what.startsWith("save")) {
      this.unsaved("that was stopped");
    }
  }

  unsaved(why) {
    this.state = "ready";
    this.say(`Not saved: ${withoutStop(why)}.`);
  }

  // ---- what was found

  ready({ summary, fault, spent, isStopped }) {
    this.summary = summary;
    this.said = { text: this.wholeText(summary, fault, spent, isStopped), isBad: fault !== "" };
    this.sayWhole();
    for (const id of ["overview", "found", "table"]) {
      this.byId(id).hidden = summary.packets === 0;
    }
    this.byId("connections").replaceChildren();
    this.streams = new Map();
    // How many packets of each connection were opened.
    this.opened = new Map();
    this.cardsShown = 0;
    this.askCards();
    const go = (index) => this.list.goTo(index);
    showFindings(this.byId("findings"), this.byId("found-title"), summary.findings, summary.finding_count, go);
    this.list.filterSoon(AFTER_OVERVIEW);
    this.state = "ready";
  }

  wholeText(summary, fault, spent, isStopped) {
    const { packets, further_packets: further, connections, secrets, capture, cut_off: isCut } = summary;
    const unopened = unopenedTexts(capture.unopened);
    return `${[
      `${this.file.name}, ${this.keysText()}`,
      `${count(packets, "packet")} of ${count(connections, "connection")}, read in ${(spent / 1000).toFixed(1)} s`,
      ...unopened, unopened.length > 0 && secrets === 0 ? "the key log that the endpoints wrote would open more" : "",
      capture.others > 0 ? `${count(capture.others, "record")} of other protocols` : "",
      further > 0 ? `${further} packets more than can be listed` : "",
      isStopped ? "stopped before the end" : "", fault, isCut && !isStopped && !fault ? "the file is cut off" : "",
    ].filter(Boolean).join("; ")}.`;
  }

  askCards() {
    this.ask("cards", { from: this.cardsShown, to: this.cardsShown + CARDS });
  }

  cards({ from, list }) {
    if (from !== this.cardsShown) {
      return;
    }
    this.cardsShown += list.length;
    list.forEach(({ connection, client, server }) => this.opened.set(connection, client.opened + server.opened));
    addCards(this.byId("connections"), list, {
      filter: (number) => this.list.apply(`c:${number}`),
      picture: (number) => this.ask("points", { connection: number }),
      trace: (number) => this.save("saveTraces", { connection: number }),
      streams: (number, table) => this.streams.set(number, table),
      askStreams: (connection, from, to) => this.ask("streams", { connection, from, to }),
    });
    const more = moreText(this.cardsShown, this.summary.connections, this.summary.further_connections);
    this.byId("more-text").textContent = more;
    this.byId("more-connections").hidden = this.cardsShown >= this.summary.connections;
    if (list.length > 0 && this.cardsShown === list.length) {
      this.ask("points", { connection: list[0].connection });
    }
  }

  points({ connection, points }) {
    this.byId("times").hidden = points.length === 0;
    const title = pictureTitle(connection, points.length / POINT, this.opened.get(connection));
    this.byId("times-title").textContent = `Packet ${title}`;
    this.pictured = { connection, title };
    this.timeline.show(points);
  }

  // Saves the part of the picture that is shown.
  saveTimeline() {
    const { connection, title } = this.pictured;
    saveText(this.timeline.file(`${this.file.name}: ${title}`), "image/svg+xml", `${this.file.name}.${connection}.svg`);
  }

  open(index) {
    this.refusal = "";
    this.ask("detail", { index });
  }

  detail({ detail }) {
    this.datagram.show(detail, this.columns());
    this.showStop(this.state === "reading" || this.state === "saving");
    if (this.state === "ready") {
      this.sayWhole();
    }
  }

  // Has the worker make a file of what is asked for, unless it is busy.
  save(type, message = {}) {
    if (this.state === "ready") {
      this.state = "saving";
      this.ask(type, { name: this.file.name, ...message });
    }
  }

  // |fault| is why there is less in the file than in the capture.
  saved({ blob, name, fault }) {
    saveBlob(blob, name);
    this.state = "ready";
    if (fault) {
      this.say(`${name} has only a part of the capture: ${fault}.`, true);
    } else {
      this.sayWhole();
    }
  }
}
