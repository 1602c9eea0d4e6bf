// Several files as one: an archive in the format that POSIX calls ustar.

const BLOCK_SIZE = 512;
const MOST_NAME = 100;
// Where the fields of a header begin.
const FIELDS = { mode: 100, uid: 108, gid: 116, size: 124, time: 136, sum: 148, type: 156, magic: 257 };

const sizeOf = (part) => part.byteLength ?? part.size;
const octal = (number, digits) => `${number.toString(8).padStart(digits, "0")}\0`;

// A name of at most as many bytes as a header has room for, without its beginning if it is longer.
export function shortName(name) {
  const encoder = new TextEncoder();
  let signs = [...name];
  while (encoder.encode(signs.join("")).length > MOST_NAME) {
    signs = signs.slice(1);
  }
  return signs.join("");
}

// The header of a file.
function headerOf(name, size) {
  const header = new Uint8Array(BLOCK_SIZE);
  const encoder = new TextEncoder();
  const put = (text, at) => header.set(encoder.encode(text), at);
  put(shortName(name), 0);
  put(octal(0o644, 7), FIELDS.mode);
  put(octal(0, 7), FIELDS.uid);
  put(octal(0, 7), FIELDS.gid);
  put(octal(size, 11), FIELDS.size);
  put(octal(0, 11), FIELDS.time);
  put("0", FIELDS.type);
  put("ustar\x0000", FIELDS.magic);
  // The sum counts its own field as blanks.
  put("        ", FIELDS.sum);
  put(`${octal(header.reduce((sum, byte) => sum + byte, 0), 6)} `, FIELDS.sum);
  return header;
}

// The parts of an archive of files, each a name and the parts that it has, which are bytes or Blobs.
export function tarParts(files) {
  const parts = [];
  for (const [name, contents] of files) {
    const size = contents.reduce((sum, part) => sum + sizeOf(part), 0);
    parts.push(headerOf(name, size), ...contents, new Uint8Array(-size & (BLOCK_SIZE - 1)));
  }
  return [...parts, new Uint8Array(2 * BLOCK_SIZE)];
}
