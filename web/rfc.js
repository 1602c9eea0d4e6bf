// Where an item or a field is described: the section of an RFC, and its address.

import { FRAMES, PARAMETERS } from "./formats.js";
import { ACK, SHORT } from "./layout.js";
import { headerOf } from "./names.js";

const ACK_FREQUENCY = "draft-ietf-quic-ack-frequency";
const ACK_FREQUENCY_DRAFT = `${ACK_FREQUENCY}-08`;

// Parts of ACK frames that have their own section.
const ACK_SECTIONS = {
  Gap: "19.3.1", "ACK Range Length": "19.3.1", "ACK Ranges": "19.3.1", Ranges: "19.3.1",
  "ECT0 Count": "19.3.2", "ECT1 Count": "19.3.2", "ECN-CE Count": "19.3.2",
};

const VERSION_2 = 0x6b3343cf;

// Fields of packets that have their own section, whatever the packet.
const PACKET_FIELDS = {
  "Packet Number": "17.1", "Packet Number and Packet Payload, protected": "RFC 9001, section 5.4",
  "Packet Payload, protected": "RFC 9001, section 5.3", "Retry Integrity Tag": "RFC 9001, section 5.8",
};

function packetSection({ kind, version }, field) {
  if (field && PACKET_FIELDS[field.name]) {
    return PACKET_FIELDS[field.name];
  }
  if (kind === null) {
    return "17";
  }
  if (kind < SHORT && version === VERSION_2 && ["First Byte", "Version"].includes(field?.name)) {
    return `RFC 9369, section ${field.name === "Version" ? "3.1" : "3.2"}`;
  }
  return headerOf(kind).section;
}

function parameterSection({ kind, name }, field) {
  if (kind === null || (field && /^Parameter (ID|Length)$/.test(field.name))) {
    return "18";
  }
  return PARAMETERS.get(Number(kind))?.section ?? (name === "reserved parameter" ? "18.1" : "18");
}

function frameSection({ kind }, field) {
  if (kind === null) {
    return "12.4";
  }
  return (kind === ACK && field && ACK_SECTIONS[field.name]) || FRAMES.get(kind).section;
}

// The section that describes an item, or a field of it, as text and as an address. One that is only a number is RFC
// 9000's.
export function sectionOf(unit, item, field) {
  const sections = { frame: frameSection, packet: packetSection, parameter: parameterSection };
  const [section, document = "RFC 9000"] = sections[unit](item, field).split(", section ").reverse();
  if (document === ACK_FREQUENCY) {
    const address = `https://www.ietf.org/archive/id/${ACK_FREQUENCY_DRAFT}.html#section-${section}`;
    return { text: `the ACK frequency draft, section ${section}`, address };
  }
  const address = `https://www.rfc-editor.org/rfc/${document.replace(" ", "").toLowerCase()}.html#section-${section}`;
  return { text: `${document}, section ${section}`, address };
}
