// The panel "Ciphers and components", its data of a request or a response: TDES-CBC under the key
// for data of a number (ANSI X9.24-1:2009 annex A.4.1).
import * as calls from "./calls.js";
import { Fault } from "./faults.js";
import { attempt, element, follow, read, renew, show } from "./fields.js";
import { block, doubleKey, hex, utf8, wholeBlocks } from "./hexadecimal.js";

const BLOCK = 8;
const SIDES = ["request", "response"];

/** The side whose data are chosen. Of the fields for keys, its one is shown. */
function chosenSide() {
  const side = SIDES.find((it) => element(`data-of-${it}`).checked);
  for (const it of SIDES) element(`data-${it}`).closest(".field").hidden = it !== side;
  return side;
}

/** The bytes of a text, which is to have whole blocks: nothing is padded here. */
function blocksOfText(text) {
  const bytes = utf8(text);
  if (bytes.length && bytes.length % BLOCK === 0) return bytes;
  throw new Fault(0, `whole blocks of ${BLOCK} bytes are wanted, and this text has ${bytes.length}`);
}

/** Bytes as a text; a dot stands for each that is no printable character of ASCII. */
const asText = (bytes) =>
  Array.from(bytes, (it) => (it >= 0x20 && it < 0x7f ? String.fromCharCode(it) : ".")).join("");

function renewed() {
  renew(element("cipher-data"));
  const way = element("data-way").value;
  const key = read(`data-${chosenSide()}`, doubleKey);
  const iv = read("data-iv", block);
  const bytes = read("data-text", way === "text" ? blocksOfText : wholeBlocks);
  if (!key || !iv || !bytes) return;
  attempt(() => "data-text", () => {
    const made = (way === "decipher" ? calls.decipherChain : calls.encipherChain)(key, iv, bytes);
    show("data-result", hex(made));
    if (way === "decipher") show("data-as-text", asText(made));
  });
}

export function startData() {
  follow(element("cipher-data"), renewed);
}
