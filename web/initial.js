// Opens Initial packets of versions 1 and 2 with the browser's Web Crypto. Anyone can open them, since their keys
// follow from the destination id of the client's first packet (RFC 9001, section 5.2; RFC 9369, section 3.3).

import { fromHex } from "./bytes.js";
import { INITIAL } from "./layout.js";
import { readBytes } from "./reading.js";

// For each version, the salt of its secrets and the prefix of the labels of its keys.
const INITIAL_SALTS = new Map([
  [0x00000001, ["38762cf7f55934b34d179ae6a4c80cadccbb7f0a", "quic"]],
  [0x6b3343cf, ["0dede3def700a6db819381be6e269dcbf9bd2ed9", "quicv2"]],
]);
const BLOCK = 16;
const MASKED = 5;
const SECRET = 32;
// How many bytes after the beginning of the packet number a sample begins (RFC 9001, section 5.4.2).
const BEFORE_SAMPLE = 4;

// Why the browser can't open anything.
export const NO_CIPHERS = "This page can’t open it: browsers give ciphers (Web Crypto) only to pages from https, from the "
  + "browser’s own machine or from a file, and this one came in another way. ";

export const hasCiphers = () => globalThis.crypto?.subtle !== undefined;
export const hasInitialKeys = (version) => INITIAL_SALTS.has(version);

async function hmac(key, bytes) {
  const imported = await crypto.subtle.importKey("raw", key, { name: "HMAC", hash: "SHA-256" }, false, ["sign"]);
  return new Uint8Array(await crypto.subtle.sign("HMAC", imported, bytes));
}

// HKDF-Expand-Label without a context (RFC 8446, section 7.1), for at most 32 bytes, which are one block of HKDF.
async function expanded(secret, label, length) {
  const name = new TextEncoder().encode(`tls13 ${label}`);
  const block = await hmac(secret, Uint8Array.from([0, length, name.length, ...name, 0, 1]));
  return block.slice(0, length);
}

async function initialKeys(version, id, side) {
  const [salt, prefix] = INITIAL_SALTS.get(version);
  const secret = await expanded(await hmac(fromHex(salt), id), `${side} in`, SECRET);
  const lengths = [["key", BLOCK], ["iv", 12], ["hp", BLOCK]];
  return Promise.all(lengths.map(([name, length]) => expanded(secret, `${prefix} ${name}`, length)));
}

// The mask of a header. Web Crypto has no AES on one block, so this is the first block of CBC that begins with zeros.
async function maskOf(key, sample) {
  const imported = await crypto.subtle.importKey("raw", key, "AES-CBC", false, ["encrypt"]);
  const blocks = await crypto.subtle.encrypt({ name: "AES-CBC", iv: new Uint8Array(BLOCK) }, imported, sample);
  return new Uint8Array(blocks).slice(0, MASKED);
}

// The bytes of a header without protection.
function plainHeader(bytes, { begin, number }, { first, numberLength, number: written }) {
  const header = bytes.slice(begin, number + numberLength);
  header[0] = first;
  for (let place = 1; place <= numberLength; place += 1) {
    header[header.length - place] = Number((written >> BigInt(8 * (place - 1))) & 0xffn);
  }
  return header;
}

// The payload without protection, or null if the tag is wrong. The truncated number is taken as the full one, since no
// endpoint sends so many Initial packets that they would differ.
async function plainPayload(key, iv, { number }, header, sealed) {
  const nonce = iv.slice();
  for (let place = 0; place < 8; place += 1) {
    nonce[nonce.length - 1 - place] ^= Number((number >> BigInt(8 * place)) & 0xffn);
  }
  const imported = await crypto.subtle.importKey("raw", key, "AES-GCM", false, ["decrypt"]);
  try {
    const words = { name: "AES-GCM", iv: nonce, additionalData: header, tagLength: 8 * BLOCK };
    return new Uint8Array(await crypto.subtle.decrypt(words, imported, sealed));
  } catch {
    return null;
  }
}

// Opens the packet with the keys that follow from one of the ids, as either side's. Returns the id, the side, the mask
// and the payload, or null. |unprotect| removes header protection with a mask.
export async function openInitial(bytes, packet, ids, unprotect) {
  const begin = packet.number + BEFORE_SAMPLE;
  const sample = bytes.slice(begin, begin + BLOCK);
  if (begin + BLOCK > packet.end) {
    return null;
  }
  for (const id of ids) {
    for (const side of ["client", "server"]) {
      const [key, iv, hp] = await initialKeys(packet.version, id, side);
      const mask = await maskOf(hp, sample);
      const header = unprotect(mask);
      const sealed = header && bytes.slice(packet.number + header.numberLength, packet.end);
      const plain = header && await plainPayload(key, iv, header, plainHeader(bytes, packet, header), sealed);
      if (plain) {
        return { id, side, mask, plain };
      }
    }
  }
  return null;
}

// The payloads of a side's Initial packets in datagrams, with keys that follow from an id. |library| reads the
// datagrams, by these choices.
export async function initialPayloads(library, datagrams, choices, { id, side }) {
  const payloads = [];
  for (const bytes of datagrams) {
    const reading = readBytes(library, bytes, { ...choices, mode: "datagram" });
    const packets = Array.from({ length: reading.whole }, (_, index) => reading.packet(index));
    for (const packet of packets.filter(({ kind, version }) => kind === INITIAL && hasInitialKeys(version))) {
      const found = await openInitial(bytes, packet, [id], (mask) => {
        // Something else may be held by now.
        library.hold(bytes);
        return library.unprotect(packet, mask);
      });
      if (found?.side === side) {
        payloads.push(found.plain);
      }
    }
  }
  return payloads;
}
