// Whether another mode reads what the chosen one rejects, as `quic-wire` hints.

import { FRAMES } from "./formats.js";
import { readBytes } from "./reading.js";

// A datagram has fewer bytes.
const MOST_TRIED = 65536;

// The mode, or null if there is doubt. A long header of a version that is read is neither a frame's type nor a
// parameter's id.
export function otherMode(library, { bytes, error }, choices) {
  if (!error || bytes.length === 0 || bytes.length > MOST_TRIED) {
    return null;
  }
  if (choices.mode === "datagram") {
    // Any bytes after the type of a STREAM or DATAGRAM without a length are one such frame.
    const isAny = FRAMES.get(bytes[0])?.fields.at(-1).kind === "rest";
    return isAny || readBytes(library, bytes, { ...choices, mode: "frames" }).error ? null : "frames";
  }
  const reading = readBytes(library, bytes, { ...choices, mode: "datagram" });
  const isLong = bytes[0] >= 0xc0 && reading.whole > 0 && reading.packet(0).version !== 0;
  return isLong ? "datagram" : null;
}
