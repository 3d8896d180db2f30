// What goes into the MACs of a message, block by block: the padding, and of CMAC the subkey.
import * as calls from "./calls.js";
import { made, tableOf } from "./fields.js";
import { hex } from "./hexadecimal.js";
import { RETAIL_KEY, paddedByBit, paddedByZeros } from "./mac_kinds.js";

const BLOCK = 8;
// Of a long message so many of its first blocks are shown, and the last one.
const MOST_FIRST = 31;
// What a bit that is shifted out at the left comes back as (NIST SP 800-38B section 5.3).
const REDUCTION = 0x1B;

/** A block times two, in the field of CMAC's subkeys. */
function doubled(block) {
  const carry = block[0] >> 7;
  return block.map((it, at) => {
    const next = at + 1 < BLOCK ? block[at + 1] >> 7 : 0;
    return (it << 1 & 255 | next) ^ (at + 1 === BLOCK ? carry * REDUCTION : 0);
  });
}

/** The subkeys of a key (NIST SP 800-38B section 6.1). */
function subkeys(key) {
  const first = doubled(calls.encipher(key, new Uint8Array(BLOCK)));
  return [first, doubled(first)];
}

const blocksOf = (bytes) => Array.from({ length: bytes.length / BLOCK },
  (_, at) => bytes.subarray(BLOCK * at, BLOCK * (at + 1)));

/** The blocks that CMAC enciphers: the last one with the subkey for a whole or a padded one. */
function cmacBlocks(key, message) {
  const isWhole = message.length > 0 && message.length % BLOCK === 0;
  const blocks = blocksOf(isWhole ? message : paddedByBit(message));
  const padded = blocks[blocks.length - 1];
  const subkey = subkeys(key)[isWhole ? 0 : 1];
  blocks[blocks.length - 1] = padded.map((it, at) => it ^ subkey[at]);
  return { blocks, isWhole, padded, subkey };
}

/** The columns of a message: a name, and its blocks. */
function columnsOf(key, message, cmac) {
  const columns = [{ name: "cmac", title: "CMAC", blocks: cmac.blocks }];
  if (key.length !== RETAIL_KEY) return columns;
  const bit = blocksOf(paddedByBit(message));
  columns.unshift({ name: "retail-bit", title: "retail MAC, 80 00 ...", blocks: bit });
  if (message.length === 0) return columns;
  const zeros = blocksOf(paddedByZeros(message));
  columns.unshift({ name: "retail", title: "retail MAC, zeros", blocks: zeros });
  return columns;
}

function blockRow(columns, at) {
  const row = made("tr", "", { "data-block": at + 1 });
  row.append(made("th", `${at + 1}`, { scope: "row" }));
  for (const { name, blocks } of columns) {
    row.append(made("td", at < blocks.length ? hex(blocks[at]) : "", { class: name }));
  }
  return row;
}

function leftOutRow(columns, count) {
  const row = made("tr");
  row.append(made("td", `${count} blocks more`, { class: "notes", colspan: columns.length + 1 }));
  return row;
}

function blockTable(columns) {
  const count = Math.max(...columns.map((it) => it.blocks.length));
  // The last two rows: where the padding fills a block of its own, the other MACs end before it.
  const behind = Math.max(count - 2, 0);
  return tableOf(["block", ...columns.map((it) => it.title)], (body) => {
    for (let at = 0; at < Math.min(behind, MOST_FIRST); at += 1) body.append(blockRow(columns, at));
    if (behind > MOST_FIRST) body.append(leftOutRow(columns, behind - MOST_FIRST));
    for (let at = behind; at < count; at += 1) body.append(blockRow(columns, at));
  }, "What goes into each MAC, block by block");
}

function subkeyLine({ isWhole, padded, subkey }) {
  const why = isWhole ? "the last block is complete" : "the last block is padded with 80 00 ...";
  const name = isWhole ? "K1" : "K2";
  const added = `${hex(subkey)}, is added to ${hex(padded)} (exclusive or)`;
  return `CMAC: ${why}, so subkey ${name}, ${added}.`;
}

/** The elements that show what goes into the MACs of a message under a key. */
export function shownBlocks(key, message) {
  const cmac = cmacBlocks(key, message);
  const line = made("p", subkeyLine(cmac), { class: "note", "data-subkey": cmac.isWhole ? 1 : 2 });
  return [blockTable(columnsOf(key, message, cmac)), line];
}
