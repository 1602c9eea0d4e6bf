// A packet of a capture: its datagram byte by byte, and its payload without protection.

import { fromHex } from "./bytes.js";
import { VERSIONS } from "./formats.js";
import { HelloView } from "./hello.js";
import { inspect } from "./inspector.js";
import { HANDSHAKE, INITIAL } from "./layout.js";
import { readBytes } from "./reading.js";
import { element } from "./rows.js";
import { count } from "./shown.js";
import { Views } from "./views.js";

// How many frames are shown under a packet in the tree, and under how many packets before and after the chosen one.
const MOST_INNER = 60;
const MOST_BESIDE = 50;
// How payloads are shown: frames of the ACK frequency extension may have been negotiated. What RFC 9000 rejects is in
// the text of the packet.
const PAYLOAD = { mode: "frames", quinn: true, strict: true };

// The packets that may have transport parameters, by the names of their types.
const KINDS_OF_HELLO = { Initial: INITIAL, Handshake: HANDSHAKE };

// What is said of a packet besides its bytes.
function packetText(packet) {
  const { type, number, packet_in_datagram: [begin, end], text } = packet;
  const name = number === undefined ? type : `${type} ${number}`;
  return `${name}, bytes ${begin}..${end}${text ? `: ${text}` : ""}`;
}

export class DatagramView {
  // |boxes| are the elements; each of the three libraries holds what one of the views shows.
  constructor(boxes, [library, payloadLibrary, helloLibrary]) {
    Object.assign(this, { boxes, library, payloadLibrary, reading: null, payload: null });
    const inspected = (reading, spot) => inspect(boxes.inspector, reading, reading && spot);
    this.views = new Views(boxes.grid, boxes.outline, (spot) => {
      inspected(this.reading, spot);
      this.follow(spot);
    });
    this.payloadViews = new Views(boxes.payloadGrid, boxes.payloadOutline, (spot) => inspected(this.payload, spot));
    this.hello = new HelloView(helloLibrary, boxes.hello, inspected);
  }

  hide() {
    this.boxes.section.hidden = true;
    this.boxes.inspector.hidden = true;
  }

  // Shows what the worker said of a packet, in rows of this many bytes.
  show({ index, record, from, to, datagram, packets, findings }, columns) {
    const { boxes } = this;
    boxes.section.hidden = false;
    // What was lit is of another packet.
    boxes.inspector.hidden = true;
    boxes.title.textContent = `Record ${record}: ${from} to ${to}`;
    const chosen = packets.find((packet) => packet.index === index);
    boxes.note.textContent = packetText(chosen);
    boxes.broken.replaceChildren(...findings.map((one) => element("li", "fault",
      `Byte ${one.offset_in_datagram}: ${one.seen}. Expected: ${one.expected}. RFC ${one.rfc}, section ${one.section}`,
    )));
    boxes.views.hidden = datagram === undefined;
    this.packets = packets;
    this.columns = columns;
    if (datagram === undefined) {
      boxes.note.textContent += ". Its bytes aren’t kept.";
      this.showPayload(null);
      return;
    }
    this.showDatagram(fromHex(datagram), chosen);
  }

  showDatagram(bytes, chosen) {
    const idLength = chosen.id_len || Math.max(...this.packets.map(({ id_len: length }) => length));
    this.reading = readBytes(this.library, bytes, { mode: "datagram", idLength, versions: VERSIONS });
    const place = this.packets.indexOf(chosen);
    for (const packet of this.packets.slice(Math.max(0, place - MOST_BESIDE), place + MOST_BESIDE)) {
      const at = this.reading.indexAt(packet.packet_in_datagram[0]);
      if (packet.mask && packet.payload !== undefined && at >= 0) {
        this.reading.open(at, fromHex(packet.mask), this.linesOf(packet));
      }
    }
    this.views.show(this.reading, this.columns);
    this.showPayload(chosen);
    const at = this.reading.indexAt(chosen.packet_in_datagram[0]);
    if (at >= 0) {
      this.views.select(this.views.spotOf(at, -1));
    }
  }

  // The frames of a packet as lines of the tree.
  linesOf({ payload }) {
    const reading = readBytes(this.payloadLibrary, fromHex(payload), PAYLOAD);
    const lines = Array.from({ length: Math.min(reading.count, MOST_INNER) }, (_, inner) => {
      const { name, summary, begin, end } = reading.item(inner);
      return { name, value: summary, inner, place: `${begin}..${end}` };
    });
    if (reading.count > lines.length) {
      lines.push({ name: `${reading.count - lines.length} more`, value: "", inner: lines.length, place: "" });
    }
    return lines;
  }

  // The payload of a packet, or nothing.
  showPayload(packet) {
    const { boxes } = this;
    this.payload = null;
    boxes.payload.hidden = packet?.payload === undefined;
    if (boxes.payload.hidden) {
      return;
    }
    const bytes = fromHex(packet.payload);
    this.payload = readBytes(this.payloadLibrary, bytes, PAYLOAD);
    boxes.payloadTitle.textContent = `Payload of ${packet.type} ${packet.number}, ${count(bytes.length, "byte")} `
      + "without protection";
    this.payloadViews.show(this.payload, this.columns);
    this.shown = packet;
    const same = this.packets.filter(({ type, payload }) => type === packet.type && payload !== undefined);
    const payloads = same.map(({ payload }) => fromHex(payload));
    // A server has none in its Initial packets.
    const kind = packet.type === "Initial" && packet.sender === "server" ? null : KINDS_OF_HELLO[packet.type];
    this.hello.show(payloads, kind, this.columns, { quinn: false });
  }

  // Shows the payload of the packet in which a byte or a field was chosen, and its frame.
  follow(spot) {
    if (!spot?.isActive) {
      return;
    }
    const { begin, inner } = this.reading.item(spot.item);
    const packet = this.packets.find(({ packet_in_datagram: [from] }) => from === begin);
    if (packet?.payload !== undefined && packet !== this.shown) {
      this.showPayload(packet);
    }
    const lines = this.reading.item(spot.item).lines ?? [];
    const frame = inner ? lines[spot.field]?.inner : undefined;
    if (frame !== undefined && this.payload && frame < this.payload.count) {
      this.payloadViews.select(this.payloadViews.spotOf(frame, -1));
    }
  }
}
