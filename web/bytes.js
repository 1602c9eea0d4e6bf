// Bytes and hexadecimal digits. Functions "with pauses" are generators (slices.js).

import { answerOf, forEach } from "./slices.js";
import { base64Of, fromDigits } from "./written.js";

export const fromHex = (digits) => answerOf(fromDigits(digits));
export const fromBase64 = (text) => answerOf(base64Of(text));

const PAIRS = Array.from({ length: 256 }, (_, byte) => byte.toString(16).padStart(2, "0"));

export function hexOfByte(byte) {
  return PAIRS[byte];
}

export function toHex(bytes) {
  let digits = "";
  for (const byte of bytes) {
    digits += PAIRS[byte];
  }
  return digits;
}

// Several pieces of bytes, joined; with pauses.
export function* joinBytes(parts) {
  let [length, at] = [0, 0];
  yield* forEach(parts, (part) => {
    length += part.length;
  });
  const bytes = new Uint8Array(length);
  yield* forEach(parts, (part) => {
    bytes.set(part, at);
    at += part.length;
  });
  return bytes;
}
