// The module's functions, which rust/page/src/exports.rs describes: bytes go in, text and numbers come out.

// A string or a number in JSON, and integers that are long enough to be too great for a double.
const JSON_TOKEN = /"[^"\\]*(?:\\.[^"\\]*)*"|-?\d[\d.eE+-]*/g;
const LONG_INTEGER = /^\d{16,}$/;
const MAY_HAVE_ONE = /[:,[]\d{16}/;

export class Module {
  // Starts a module that was compiled. It imports nothing.
  static async start(compiled) {
    return new Module((await WebAssembly.instantiate(compiled, {})).exports);
  }

  // |chosen| is the number of the bytes that calls on bytes read, |spoken| the versions that they know.
  constructor(calls) {
    Object.assign(this, { calls, chosen: 0, spoken: null });
  }

  // Puts bytes where the next call takes them.
  put(bytes) {
    const place = this.calls.input(bytes.length);
    new Uint8Array(this.calls.memory.buffer, place >>> 0, bytes.length).set(bytes);
  }

  putText(text) {
    this.put(new TextEncoder().encode(text));
  }

  // A copy of what the last call has left.
  bytes() {
    const begin = this.calls.output() >>> 0;
    return this.calls.memory.buffer.slice(begin, begin + this.calls.output_len());
  }

  text() {
    return new TextDecoder().decode(this.bytes());
  }

  // How many bytes of memory it has.
  get size() {
    return this.calls.memory.buffer.byteLength;
  }

  // Numbers as BigInts.
  numbers() {
    return new BigUint64Array(this.bytes());
  }

  // Why the last call has failed, or nothing.
  get words() {
    const bytes = new Uint8Array(this.calls.memory.buffer, this.calls.words() >>> 0, this.calls.words_len());
    return new TextDecoder().decode(bytes);
  }

  // The objects of JSON of a call that leaves one in each line.
  objects(name, ...numbers) {
    this.calls[name](...numbers);
    return objectsOf(this.text());
  }
}

// The value of JSON. Integers that a double can't hold are BigInts: QUIC's go up to 2^62 - 1.
export function valueOfJson(text) {
  if (!MAY_HAVE_ONE.test(text)) {
    return JSON.parse(text);
  }
  // No string in the text begins so.
  let mark = "#";
  while (text.includes(`"${mark}`)) {
    mark += "#";
  }
  const isLong = (token) => LONG_INTEGER.test(token) && !Number.isSafeInteger(Number(token));
  const marked = text.replace(JSON_TOKEN, (token) => (isLong(token) ? `"${mark}${token}"` : token));
  return JSON.parse(marked, (_, value) => (
    typeof value === "string" && value.startsWith(mark) ? BigInt(value.slice(mark.length)) : value));
}

// The objects of JSON in the lines of a text.
export function objectsOf(text) {
  return text.split("\n").filter(Boolean).map(valueOfJson);
}
