// The connections of a capture: who, how, with which transport parameters, and how each ended.

import { element } from "./rows.js";
import { count } from "./shown.js";
import { StreamTable } from "./streams.js";

// How many connections are shown at first, and how many more at a time.
export const CARDS = 100;

const SIDES = ["client", "server"];

// What never has keys isn't missed.
const WITHOUT_KEYS = ["a version negotiation", "a Retry", "a stateless reset"];

// Why packets weren't opened, each reason with its count.
export function unopenedTexts(unopened) {
  return unopened.filter(({ reason }) => !WITHOUT_KEYS.includes(reason))
    .map(({ reason, count: one }) => `${one} not opened: ${reason}`);
}

// JSON, in which integers may be BigInts.
function jsonOf(value) {
  if (typeof value !== "object" || value === null) {
    return typeof value === "bigint" ? `${value}` : JSON.stringify(value);
  }
  return Array.isArray(value) ? `[${value.map(jsonOf).join(",")}]`
    : `{${Object.entries(value).map(([name, one]) => `${JSON.stringify(name)}:${jsonOf(one)}`).join(",")}}`;
}

// The value of a transport parameter as text.
export const parameterText = (value) => (typeof value === "object" ? jsonOf(value) : `${value}`);

// The transport parameters of both sides beside each other.
function parameterTable(lists) {
  const names = [...new Set(lists.flatMap((list) => Object.keys(list ?? {})))];
  const table = element("table", "parameters");
  const head = element("tr");
  head.append(...["transport parameter", ...SIDES].map((text) => element("th", "", text, { scope: "col" })));
  table.append(head);
  for (const name of names) {
    const row = element("tr");
    row.append(element("th", "", name, { scope: "row" }),
      ...lists.map((list) => element("td", "", list === null ? "not seen" : parameterText(list[name] ?? "–"))));
    table.append(row);
  }
  return table;
}

function parametersOf(lists) {
  if (lists.every((list) => list === null)) {
    return element("p", "", "Transport parameters weren’t seen.");
  }
  const details = element("details");
  details.append(element("summary", "", "Transport parameters"), parameterTable(lists));
  return details;
}

// What is known of a side.
function sideText(name, side) {
  const { first_address: first, last_address: last, opened, lost, lost_but_acknowledged: late, unopened } = side;
  return [
    `${name} ${first ?? "not seen"}`, last === first ? "" : `last from ${last}`, `${opened} packets opened`,
    lost > 0 ? `${lost} lost${late > 0 ? `, of which ${late} were acknowledged later` : ""}` : "",
    ...unopenedTexts(unopened),
  ].filter(Boolean).join(", ");
}

// How the handshake was negotiated, as far as it was seen.
function negotiated({ version, suite, server_name: name, protocol }) {
  const versions = { "00000001": "version 1", "6b3343cf": "version 2" };
  return [
    versions[version] ?? `version 0x${version}`, suite, name === undefined ? "" : `SNI ${name}`,
    protocol === undefined ? "" : `ALPN ${protocol}`,
  ].filter(Boolean).join(", ");
}

function card(connection, on) {
  const { connection: number, begin, last, end, first_dst: id, retry_src: retry } = connection;
  const box = element("section", "card");
  const title = element("h3", "", `Connection ${number}`);
  const times = `${Number(begin).toFixed(3)} to ${Number(last).toFixed(3)} s`;
  box.append(title, element("p", "", `${times}, ${negotiated(connection)}`));
  for (const side of SIDES) {
    box.append(element("p", "", sideText(side, connection[side])));
  }
  const retried = retry === undefined ? "" : `, after a Retry ${retry}`;
  box.append(element("p", "", `first destination id ${id || "empty"}${retried}`));
  box.append(element("p", "ended", `${end[0].toUpperCase()}${end.slice(1)}.`));
  const buttons = [
    ["Its packets", () => on.filter(number)], ["Packets over time", () => on.picture(number)],
    ["Save as qlog", () => on.trace(number)],
  ];
  const row = element("p", "card-buttons");
  row.append(...buttons.map(([text, click]) => {
    const button = element("button", "plain", text, { type: "button" });
    button.setAttribute("aria-label", `${text}, connection ${number}`);
    button.addEventListener("click", click);
    return button;
  }));
  box.append(row, parametersOf(connection.parameters), ...streamsOf(connection, on));
  return box;
}

// The table of streams, if there are any.
function streamsOf({ connection, streams }, on) {
  if (streams === 0) {
    return [];
  }
  const table = new StreamTable(streams, (from, to) => on.askStreams(connection, from, to));
  on.streams(connection, table);
  return [table.box];
}

// Adds cards of connections to a box. |on| has filter(connection); picture(connection); trace(connection), which saves
// its trace; streams(connection, table), which keeps a table; and askStreams(connection, from, to), which asks for
// rows.
export function addCards(box, list, on) {
  box.append(...list.map((connection) => card(connection, on)));
}

// How many connections aren't shown, as text, or nothing.
export function moreText(shown, all, further) {
  const left = all - shown;
  const without = further > 0 ? ` ${count(further, "connection")} more can’t be listed.` : "";
  return left > 0 ? `${count(left, "connection")} more.${without}` : without;
}
