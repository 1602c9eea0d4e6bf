// Starts the page: its module, and behind each of its two doors what is there.

import { fromBase64 } from "./bytes.js";
import { Captures } from "./captures.js";
import { Library } from "./library.js";
import { captureFragment, filterOf, isOfCaptures } from "./link.js";
import { columns, Page } from "./page.js";

// How many libraries the bytes need, and how many the packets of captures.
const [OF_BYTES, OF_CAPTURES] = [5, 3];
const NEEDS = "It needs WebAssembly with 64-bit integers, and DecompressionStream, as browsers of 2024 and later have "
  + "them.";

const elementOf = (id) => document.getElementById(id);

// The module's bytes: those in the page, which gzip compressed, or else the file beside it.
async function moduleBytes() {
  const inlined = elementOf("module");
  if (inlined) {
    const packed = new Blob([fromBase64(inlined.textContent)]).stream();
    return new Response(packed.pipeThrough(new DecompressionStream("gzip"))).arrayBuffer();
  }
  return (await fetch("quic_wire_page.wasm")).arrayBuffer();
}

// The worker: its script is in the page, or beside it.
function makeWorker() {
  const inlined = elementOf("worker");
  if (!inlined) {
    return new Worker("worker.js", { type: "module" });
  }
  const address = URL.createObjectURL(new Blob([inlined.textContent], { type: "text/javascript" }));
  return new Worker(address);
}

// Opens a door, and shows in the link which one.
class Doors {
  constructor(page, captures) {
    Object.assign(this, { page, captures });
    this.radios = { bytes: elementOf("door-bytes"), captures: elementOf("door-captures") };
    page.onCapture = (bytes, format) => this.take(bytes, format);
    for (const [name, radio] of Object.entries(this.radios)) {
      radio.addEventListener("change", () => this.open(name));
    }
    captures.list.filtering = () => this.write();
    window.addEventListener("hashchange", () => this.follow());
    this.follow();
  }

  // Opens the door that the link names.
  follow() {
    const fragment = window.location.hash.slice(1);
    const name = isOfCaptures(fragment) ? "captures" : "bytes";
    this.radios[name].checked = true;
    if (name === "captures") {
      this.captures.list.apply(filterOf(fragment));
    }
    this.show(name);
  }

  // Opens a capture whose bytes were pasted.
  take(bytes, format) {
    this.radios.captures.checked = true;
    this.open("captures");
    this.captures.take([new File([bytes], `pasted.${format}`)]);
  }

  show(name) {
    elementOf("bytes-door").hidden = name !== "bytes";
    elementOf("captures-door").hidden = name !== "captures";
  }

  open(name) {
    this.show(name);
    this.write();
  }

  write() {
    const isCaptures = this.radios.captures.checked;
    const fragment = isCaptures ? captureFragment(this.captures.list.filter.value) : this.page.fragment;
    window.history.replaceState(null, "", `#${fragment}`);
  }
}

async function begin() {
  const status = elementOf("status");
  try {
    status.textContent = "Starting the library …";
    const module = await moduleBytes();
    const libraries = await Library.load(module, OF_BYTES + OF_CAPTURES);
    const captures = new Captures(elementOf, {
      module, worker: makeWorker, libraries: libraries.slice(OF_BYTES), columns,
    });
    captures.start();
    const page = new Page(libraries.slice(0, OF_BYTES));
    page.start();
    new Doors(page, captures);
  } catch (error) {
    status.className = "status bad";
    status.textContent = `The library does not start in this browser. ${NEEDS} ${error}`;
    document.documentElement.dataset.state = "failed";
    throw error;
  }
}

begin();
