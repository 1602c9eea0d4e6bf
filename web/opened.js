// The packets of a datagram that are opened: Initial packets by the page itself, others with what the user pastes, the
// mask of the header and the plaintext payload.

import { toHex } from "./bytes.js";
import { readText } from "./entries.js";
import { HelloView } from "./hello.js";
import { hasCiphers, hasInitialKeys, NO_CIPHERS, openInitial } from "./initial.js";
import { INITIAL, RETRY, VERSION_NEGOTIATION } from "./layout.js";
import { packetName } from "./names.js";
import { readBytes } from "./reading.js";
import { element } from "./rows.js";
import { count } from "./shown.js";
import { summaryOf } from "./status.js";
import { spotIn, Views } from "./views.js";

const MASK_LENGTH = 5;
const SAMPLE_LENGTH = 16;
const TAG = 16;
// At most this many packets of a datagram can be opened, and this many frames of each are listed under it.
const MOST_PACKETS = 16;
const LISTED_FRAMES = 60;
const PASTE_OTHERS = " Paste the client’s other Initial packets too.";

// The bytes in a text, of this length or of any, and what is wrong with it.
function bytesIn(text, length) {
  const { bytes, fault } = readText(text);
  if (bytes === null || text.trim() === "") {
    return { bytes: null, fault };
  }
  const isWrong = length !== undefined && bytes.length !== length;
  return { bytes: isWrong ? null : bytes, fault: isWrong ? `${bytes.length} of ${length} bytes` : null };
}

function input(tag, name, label, value) {
  const box = element("label", "", `${label} `);
  const field = element(tag, "", "", { value, spellcheck: false, autocapitalize: "off" });
  field.dataset.name = name;
  box.append(field);
  return { box, field };
}

export class Opened {
  // |on| has lit(reading, spot), for what is lit in the payload; changed(), for packets that show more now; ids(), the
  // ids from which keys of Initial packets may follow, besides a packet's own; and payloads({ id, side }), those of a
  // side's Initial packets in other datagrams.
  constructor([library, helloLibrary], boxes, on) {
    this.library = library;
    this.boxes = boxes;
    this.on = on;
    this.payload = null;
    this.hello = new HelloView(helloLibrary, boxes.hello, on.lit, PASTE_OTHERS);
    this.views = new Views(boxes.grid, boxes.outline, (spot) => {
      if (this.payload) {
        on.lit(this.payload, spot);
      }
    });
  }

  // |saved| has the texts of mask and payload for some packets, by their index.
  show(reading, columns, saved) {
    this.reading = reading;
    this.columns = columns;
    this.saved = saved;
    this.notes = [];
    this.viewed = -1;
    const packets = [];
    for (let index = 0; reading && index < reading.whole && packets.length < MOST_PACKETS; index += 1) {
      const packet = reading.packet(index);
      if (packet.kind !== RETRY && packet.kind !== VERSION_NEGOTIATION) {
        packets.push(packet);
      }
    }
    this.boxes.details.hidden = packets.length === 0;
    this.boxes.packets.replaceChildren(...packets.map((packet) => this.form(packet, reading.indexAt(packet.begin))));
    this.boxes.details.open ||= packets.length > 0 && Object.keys(saved).length > 0;
    for (const index of Object.keys(saved).map(Number).filter((one) => this.notes[one])) {
      this.open(index);
    }
    this.view(this.viewed);
    this.openInitials();
  }

  // Opens Initial packets for which nothing was pasted, in their order.
  async openInitials() {
    const { reading } = this;
    for (const [index, one] of Object.entries(this.notes)) {
      const isInitial = one.packet.kind === INITIAL && hasInitialKeys(one.packet.version);
      if (isInitial && !this.saved[index]) {
        one.own = hasCiphers() ? "" : NO_CIPHERS;
        const { bytes } = reading;
        const own = bytes.slice(one.packet.dcid, one.packet.dcid + one.packet.dcidlen);
        const found = hasCiphers() && await openInitial(bytes, one.packet, [own, ...this.on.ids()],
          (mask) => (this.reading === reading ? reading.library.unprotect(one.packet, mask) : null));
        if (this.reading !== reading || this.notes[index] !== one || this.saved[index]) {
          return;
        }
        this.openedByPage(Number(index), found);
      }
    }
  }

  // Shows how an Initial packet was opened, or that it wasn't.
  openedByPage(index, found) {
    const one = this.notes[index];
    if (!found) {
      one.own ||= "Neither its own id nor another known one opens it: the keys of a connection’s Initial packets "
        + "follow from the destination id of the client’s first one. ";
      this.say(index, []);
      return;
    }
    one.found = found;
    one.own = `Opened as the ${found.side}’s, with keys from the id ${toHex(found.id) || "without a byte"}. `;
    one.fields[0].value = toHex(found.mask);
    one.fields[1].value = toHex(found.plain);
    const { viewed } = this;
    this.open(index);
    this.view(viewed < 0 ? this.viewed : viewed);
    this.boxes.details.open = true;
    this.on.changed();
  }

  // The inputs for one packet.
  form(packet, index) {
    const { mask, plain } = this.saved[index] ?? { mask: "", plain: "" };
    const form = element("fieldset", "packet");
    const fields = [input("input", "mask", "Mask, 5 bytes", mask), input("textarea", "plain", "Plain payload", plain)];
    fields[1].field.rows = 2;
    const note = element("p", "packet-note", "", { id: `packet-note-${index}` });
    for (const { field } of fields) {
      field.setAttribute("aria-describedby", note.id);
    }
    form.append(element("legend", "", `${packetName(packet.kind)}, ${packet.begin}..${packet.end}`),
      ...fields.map(({ box }) => box), note);
    this.notes[index] = { note, packet, fields: fields.map(({ field }) => field), own: "" };
    this.say(index, []);
    form.addEventListener("input", () => {
      this.saved[index] = { mask: fields[0].field.value, plain: fields[1].field.value };
      Object.assign(this.notes[index], { own: "", found: null });
      this.open(index);
      this.view(this.viewed);
      this.on.changed();
    });
    return form;
  }

  // Shows which bytes the mask is made from, and what is wrong.
  say(index, faults) {
    const { note, packet, own } = this.notes[index];
    const begin = packet.number + 4;
    const sample = this.reading.bytes.subarray(begin, Math.min(begin + SAMPLE_LENGTH, packet.end));
    const isShort = sample.length < SAMPLE_LENGTH;
    note.replaceChildren(...faults.map((fault) => element("strong", "fault", `${fault}. `)), own, isShort
      ? "The packet is too short for a sample." : "The mask is what the cipher of the header makes from the sample ",
    ...(isShort ? [] : [element("code", "", toHex(sample)), `, ${begin}..${begin + SAMPLE_LENGTH}.`]));
  }

  // Reads what was pasted for a packet.
  open(index) {
    const { packet, fields } = this.notes[index];
    const mask = bytesIn(fields[0].value, MASK_LENGTH);
    const plain = bytesIn(fields[1].value);
    const header = mask.bytes && this.reading.library.unprotect(packet, mask.bytes);
    const faults = [];
    for (const [at, name, { fault }] of [[0, "Mask", mask], [1, "Payload", plain]]) {
      fields[at].ariaInvalid = Boolean(fault);
      faults.push(...(fault ? [`${name}: ${fault}`] : []));
    }
    if (header && plain.bytes) {
      const room = packet.end - packet.number - header.numberLength - TAG;
      const isOff = plain.bytes.length !== room;
      faults.push(...(isOff ? [`The payload of this packet has ${count(Math.max(0, room), "byte")}, and here are ${
        plain.bytes.length}`] : []));
    }
    this.reading.open(index, header ? mask.bytes : null, header && plain.bytes ? this.framesOf(plain.bytes) : []);
    this.viewed = plain.bytes ? index : -1;
    this.say(index, faults);
  }

  // The frames of a payload as lines under its packet.
  framesOf(bytes) {
    const payload = this.readPayload(bytes);
    const shown = Math.min(payload.count, LISTED_FRAMES);
    const lines = Array.from({ length: shown }, (_, inner) => {
      const { name, summary, begin, end } = payload.item(inner);
      return { name, value: summary, inner, place: `${begin}..${end}` };
    });
    if (shown < payload.count) {
      lines.push({ name: `${payload.count - shown} more`, value: "", inner: shown, place: "" });
    }
    return lines;
  }

  readPayload(bytes) {
    return readBytes(this.library, bytes, { mode: "frames", quinn: this.reading.choices.quinn });
  }

  // Shows the payload of a packet, or none.
  view(index) {
    const bytes = index < 0 ? null : bytesIn(this.notes[index].fields[1].value).bytes;
    this.viewed = bytes ? index : -1;
    this.boxes.views.hidden = bytes === null;
    if (bytes === null) {
      this.payload = null;
      this.hello.hide();
      return;
    }
    const { packet } = this.notes[index];
    this.payload = this.readPayload(bytes);
    const what = `${count(this.payload.bad, "frame")} in ${count(bytes.length, "byte")}`;
    const { text, isBad } = summaryOf(this.payload);
    this.boxes.title.textContent = `Payload of ${packetName(packet.kind)}, ${packet.begin}..${packet.end}`;
    this.boxes.note.textContent = isBad ? `${what}, ${text}.` : `${what}.`;
    this.views.show(this.payload, this.columns);
    this.showHello(this.notes[index]);
  }

  // Shows the transport parameters in the payloads of the datagram's packets of a kind: they have one sender. A
  // ClientHello may go on in other datagrams.
  async showHello({ packet: { kind }, found }) {
    const { reading, payload, columns } = this;
    const own = this.notes.filter(({ packet }) => packet.kind === kind)
      .map(({ fields: [, plain] }) => bytesIn(plain.value).bytes).filter(Boolean);
    if (this.hello.show(own, kind, columns, reading.choices) && found) {
      const others = await this.on.payloads(found);
      if (this.reading === reading && this.payload === payload) {
        this.hello.show([...own, ...others], kind, columns, reading.choices);
      }
    }
  }

  // Follows a spot of the datagram: if its packet is chosen, the payload of that, and the frame under it.
  follow(spot, line) {
    if (spot.isActive && this.viewed !== spot.item && this.notes[spot.item]?.fields[1].value) {
      this.view(spot.item);
    }
    if (this.viewed !== spot.item || line?.inner === undefined || line.inner >= this.payload.count) {
      return;
    }
    const frame = spotIn(this.payload, line.inner, -1);
    if (spot.isActive) {
      this.views.outline.reveal(line.inner, -1);
      this.views.grid.reveal(frame.place);
    }
    this.views.grid.light(frame);
    this.views.outline.light(frame);
    this.on.lit(this.payload, frame);
  }
}
