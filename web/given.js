// The files that were given: which are captures, and which key logs.

// What files begin with that are captures: pcap in both byte orders, with microseconds or nanoseconds; pcapng; gzip.
const MAGIC_NUMBERS = ["a1b2c3d4", "d4c3b2a1", "a1b23c4d", "4d3cb2a1", "0a0d0d0a"];
const COMPRESSED = "1f8b";
// The beginning of a key log must have a line of a secret.
const BEGINNING_OF_KEYS = 1 << 20;
const SECRET_LINE = /^[A-Z][A-Z0-9_]* [0-9a-fA-F]{64} [0-9a-fA-F]+/m;

async function isCapture(file) {
  const bytes = new Uint8Array(await file.slice(0, 4).arrayBuffer());
  const front = [...bytes].map((byte) => byte.toString(16).padStart(2, "0")).join("");
  return MAGIC_NUMBERS.includes(front) || front.startsWith(COMPRESSED);
}

async function isKeyLog(file) {
  return SECRET_LINE.test(await file.slice(0, BEGINNING_OF_KEYS).text());
}

// Sorts files into captures and key logs.
export async function sorted(files) {
  const [captures, keyLogs] = [[], []];
  for (const file of files) {
    if (await isCapture(file)) {
      captures.push(file);
    } else if (await isKeyLog(file)) {
      keyLogs.push(file);
    } else {
      throw new Error(`${file.name} is neither a capture (pcap, pcapng, also compressed by gzip) nor a key log`);
    }
  }
  return { captures, keyLogs };
}
