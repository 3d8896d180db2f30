// The header of a journal of version 2, and the check sums of its records (docs/FORMATS.md, "Disk of a
// journal"). Behind its header a journal is one of version 1, but for these sums: each stands as the
// exclusive or of what is there and what has to be, which is zero where it is right.
import { RECORD, damageOfRecords } from "./journal_parts.js";
import { journalRows } from "./journal.js";
import { made } from "./fields.js";
import { hex } from "./hexadecimal.js";

const MARK = [0x01, 0xd5, 0x44, 0x55, 0x4b, 0x0d, 0x0a, 0x1a, 1, 2, 0, 0, 0, 0, 0, 32];
const IDENTITY = 16;
const REST = 24;
// In a header and in a record, where the check sum begins. Its lowest byte stands first.
const HEADER_CHECK = 28;
const CHECK = 27;
const SAID = 1;

// The check sum of each byte.
const SUMS = new Uint32Array(256).map((_, byte) => {
  let sum = byte;
  for (let bit = 0; bit < 8; bit += 1) sum = sum & 1 ? sum >>> 1 ^ 0xedb88320 : sum >>> 1;
  return sum;
});

/** CRC-32 over more bytes, from the sum of those before them, both without the last inversion. */
function summed(before, bytes, from, to) {
  let sum = before;
  for (let at = from; at < to; at += 1) sum = SUMS[(sum ^ bytes[at]) & 255] ^ sum >>> 8;
  return sum;
}

const ALL = 0xffffffff;

/** Whether the bytes begin with a header. */
export function hasHeader(bytes) {
  if (bytes.length < RECORD || MARK.some((byte, at) => bytes[at] !== byte)) return false;
  for (let at = REST; at < HEADER_CHECK; at += 1) if (bytes[at] !== 0) return false;
  const sum = (summed(ALL, bytes, 0, HEADER_CHECK) ^ ALL) >>> 0;
  return new DataView(bytes.buffer, bytes.byteOffset).getUint32(HEADER_CHECK, true) === sum;
}

/** Whether one of the bytes of a record, which begins here, is not zero. */
function isUsed(bytes, at) {
  for (let place = at; place < at + RECORD; place += 1) if (bytes[place] !== 0) return true;
  return false;
}

/** The records behind a header as those of version 1. */
function plainOf(bytes) {
  const plain = bytes.slice(RECORD);
  const view = new DataView(plain.buffer);
  const place = new Uint8Array(8);
  const placed = new DataView(place.buffer);
  const front = summed(ALL, bytes, IDENTITY, REST);
  for (let at = 0; at + RECORD <= plain.length; at += RECORD) {
    if (!isUsed(plain, at)) continue;
    placed.setUint32(4, 1 + at / RECORD);
    const sum = summed(summed(front, place, 0, 8), plain, at + SAID, at + CHECK) ^ ALL;
    view.setUint32(at + CHECK, view.getUint32(at + CHECK, true) ^ sum, true);
  }
  return plain;
}

/** What is wrong with a journal of either version, at its first wrong record behind the header. */
export function damageOfJournal(bytes) {
  if (!hasHeader(bytes)) return damageOfRecords(bytes, "its zeros", bytes.length === 0);
  const damage = damageOfRecords(plainOf(bytes), "its check sum", false);
  return damage && [damage[0], damage[1] + RECORD, damage[2] + RECORD];
}

/** What is shown of a right journal of either version: at most so many entries, and as many sums. */
export function journalParts(bytes, most) {
  if (!hasHeader(bytes)) return journalRows(bytes, most);
  const identity = hex(bytes.slice(IDENTITY, REST));
  const words = `Version 2, with the identity ${identity}. Records are counted behind the header.`;
  return [made("p", words), ...journalRows(plainOf(bytes), most)];
}
