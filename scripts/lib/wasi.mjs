// Runs a program for WASI, which sees the current folder and, by absolute paths, the topmost folder that it is in:
// node scripts/lib/wasi.mjs PROGRAM [ARGUMENT ..]
import { readFileSync } from "node:fs";
import process from "node:process";
import { WASI } from "node:wasi";

const [, , program, ...args] = process.argv;
const { env } = process;
const top = `/${process.cwd().split("/")[1]}`;
const wasi = new WASI({ version: "preview1", args: [program, ...args], env, preopens: { ".": ".", [top]: top } });
const imports = wasi.getImportObject();
const calls = imports.wasi_snapshot_preview1;
const { fd_write: write } = calls;
const again = 6;
// node makes pipes so that a write to a full one fails: then it waits a millisecond.
calls.fd_write = (...where) => {
  let result = write(...where);
  for (; result === again; result = write(...where)) Atomics.wait(new Int32Array(new SharedArrayBuffer(4)), 0, 0, 1);
  return result;
};
const { instance } = await WebAssembly.instantiate(readFileSync(program), imports);
process.exitCode = wasi.start(instance);
