// The module of proved code: loading it, and calling its exports through its memory.
import { CALLS, CHANGED, COUNT, READ, WORD } from "./call_table.js";
import { Fault } from "./faults.js";
import { unpacked } from "./unpacked.js";

// A module that has nothing but a 64-bit memory.
const PROBE = [0, 0x61, 0x73, 0x6d, 1, 0, 0, 0, 5, 3, 1, 4, 1];

let library;
// The first address behind the module's own data and stack. Arguments stand from here on.
let front;

/** Whether this browser runs modules with a 64-bit memory. */
export function canRun() {
  return typeof WebAssembly === "object" && WebAssembly.validate(new Uint8Array(PROBE));
}

/** Loads the module out of its text in the page. */
export async function load(text) {
  library = (await WebAssembly.instantiate(await unpacked(text))).instance.exports;
  front = Number(library.__heap_base.value);
}

/** The version of the calls, as `0.1.0`. */
export function version() {
  const number = library.dukpt_version();
  return [number >> 16, number >> 8, number].map((it) => it & 255).join(".");
}

/**
 * Makes a call of the module with the slices and the numbers that it reads or changes, in their order.
 * The answer has what it writes, in its order: the bytes of slices, and numbers. Of a slice with a count
 * it has as many bytes as that tells.
 *
 * Throws the Fault of a status that is not 0.
 */
export function call(name, ...all) {
  const given = [...all];
  const memory = new Uint8Array(library.memory.buffer);
  const words = [];
  const written = [];
  let end = front;
  for (const kind of CALLS[name]) {
    const value = kind === READ || kind === CHANGED ? given.shift() : undefined;
    if (typeof value === "number") {
      words.push(value);
      continue;
    }
    const isWord = kind === COUNT || kind === WORD;
    const length = isWord ? 4 : value?.length ?? room(kind, all);
    const at = end;
    end = Math.ceil((at + length) / 8) * 8;
    if (end > memory.length) throw new Fault(0, `at most ${memory.length - front - 1024} bytes`);
    words.push(BigInt(at));
    if (!isWord) words.push(BigInt(length));
    if (value) memory.set(value, at);
    if (kind !== READ) written.push({ kind, at, length });
  }
  try {
    const status = library[`dukpt_${name}`](...words);
    if (status !== 0) throw new Fault(status);
    return answers(memory, written);
  } finally {
    // No key stays in the memory behind a call.
    memory.fill(0, front, end);
  }
}

/** How many bytes a slice has that a call writes, by what the call is given. */
function room(length, given) {
  if (typeof length === "number") return length;
  return length.size * Math.floor(given[length.of].length / length.each);
}

/** What a call wrote. */
function answers(memory, written) {
  const found = [];
  for (const { kind, at, length } of written) {
    const number = () => new DataView(memory.buffer).getUint32(at, true);
    if (kind === COUNT) found.push(found.pop().slice(0, number()));
    else found.push(kind === WORD ? number() : memory.slice(at, at + length));
  }
  return found;
}
