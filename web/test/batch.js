// Run in the page by the tests: shows each of some lines, and returns what the page shows for it: the printed text of
// each command, and what in its views doesn't agree with that or with the bytes.
const [lines, form] = arguments;

const input = document.getElementById("input");
const elements = document.getElementById("form").elements;
const text = document.getElementById("text");
const status = document.getElementById("status");

// Lists are drawn whole, however long.
if (!document.documentElement.dataset.whole) {
  document.styleSheets[0].insertRule(".rows { max-height: none !important; }");
  document.documentElement.dataset.whole = "yes";
}

function setForm() {
  elements.mode.value = form.mode;
  elements.quinn.checked = form.quinn ?? false;
  elements.strict.checked = form.strict ?? false;
  elements.idLength.value = form.idLength ?? 8;
  elements.side.value = form.side ?? "client";
  text.open = true;
}

// What the tree of items shows, as quic-show prints it: the offsets and names.
function itemsShown() {
  return [...document.querySelectorAll("#outline .item")].map((line) => ({
    place: line.querySelector(".place").textContent, name: line.querySelector(".name").textContent,
    isError: line.classList.contains("error"), level: line.getAttribute("aria-level"),
  }));
}

const PACKETS = {
  initial: "Initial", "0rtt": "0-RTT", handshake: "Handshake", retry: "Retry", short: "1-RTT",
  "version-negotiation": "Version Negotiation",
};

// The items of printed lines: consecutive PADDING frames are one.
function itemsPrinted(printed) {
  const items = [];
  for (const line of printed.split("\n").filter((one) => /^\d/.test(one))) {
    const [place, word] = line.split(" ");
    const [begin, end] = place.split("..");
    const last = items[items.length - 1];
    if (word === "PADDING" && last?.name === "PADDING") {
      last.end = end;
    } else {
      items.push({ begin, end, name: PACKETS[word] ?? word });
    }
  }
  return items.map((item) => `${item.begin}..${item.end} ${item.name}`).join("\n");
}

// Whether the fields of each item follow each other, from its beginning to its end.
function gaps() {
  let place = 0;
  let end = 0;
  const found = [];
  for (const line of document.querySelectorAll("#outline .line")) {
    const range = line.querySelector(".place")?.textContent.split("..").map(Number);
    if (line.classList.contains("item")) {
      if (place !== end) {
        found.push(`fields end at ${place} and not at ${end}`);
      }
      [place, end] = range;
    } else if (range) {
      if (range[0] !== place) {
        found.push(`a field at ${range[0]} and not at ${place}`);
      }
      place = range[1];
    }
  }
  return found;
}

const bytesOf = (grid) => [...document.querySelectorAll(`#${grid} .byte`)].map((cell) => cell.textContent).join("");

// Whether the shortest form is shown exactly when it differs from the payload.
function shortestFaults(line, canon) {
  const isShown = !document.getElementById("shortest").hidden;
  if (canon === undefined || canon.startsWith("error")) {
    return isShown ? ["a shortest form"] : [];
  }
  const isSame = document.getElementById("shortest-grid").hidden;
  const shown = isSame ? line.toLowerCase() : bytesOf("shortest-grid");
  return isShown && shown === canon && isSame === (canon === line.toLowerCase()) ? [] : [`shortest form ${shown}`];
}

function faults(line, printed, canon) {
  const found = shortestFaults(line, canon);
  const bytes = bytesOf("grid");
  if (line !== "" && bytes !== line.toLowerCase()) {
    found.push(`bytes ${bytes}`);
  }
  const items = itemsShown();
  const whole = items.filter((item) => !item.isError).map((item) => `${item.place} ${item.name}`).join("\n");
  if (form.mode !== "params" && line !== "" && whole !== itemsPrinted(printed)) {
    found.push(`items ${whole}`);
  }
  const error = /^error (.*)$/m.exec(printed);
  // An empty box is no input, although an empty payload is one, with an error.
  const isBad = Boolean(error) && line !== "";
  const isReported = !isBad || status.textContent.includes(`: ${error[1]}.`);
  if (isBad !== status.classList.contains("bad") || !isReported) {
    found.push(`status ${status.textContent}`);
  }
  if (items.some((item) => item.isError) && !document.querySelector("#outline .field.fault")) {
    found.push("an error in no field");
  }
  const unlike = document.querySelectorAll("#grid .byte:not(.tone)").length;
  if (unlike > 0) {
    found.push(`${unlike} bytes without an item`);
  }
  return line === "" ? found : found.concat(gaps());
}

setForm();
return lines.map((line) => {
  input.value = line;
  input.dispatchEvent(new Event("input", { bubbles: true }));
  const printed = Object.fromEntries(
    [...document.querySelectorAll("#printed pre")].map((block) => [block.dataset.command, block.textContent]),
  );
  return { printed, faults: faults(line, Object.values(printed)[0], printed.canon) };
});
