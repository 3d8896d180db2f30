// The panel "Key block": unwrap and wrap (ANSI X9.143, version B).
import { partsOf, placeOfFault, versionNotOpened, whyNotOpened } from "./block_parts.js";
import { WORDS, doubtsOf } from "./block_words.js";
import { STATUS } from "./call_table.js";
import * as calls from "./calls.js";
import { Fault } from "./faults.js";
import { attempt, element, follow, made, read, renew, setFault, show } from "./fields.js";
import { ascii, bytesOf, characters, hex, joined, tdesKey, utf8, withoutUnseen } from "./hexadecimal.js";

const HEADER = [["usage", 2], ["algorithm", 1], ["mode", 1], ["version", 2], ["exportability", 1]];

function partRow(text, { name, at, length, meaning }, range) {
  const last = at + length - 1;
  const isWrong = range && at <= range[1] && last >= range[0];
  const row = made("tr", "", { "data-part": name, ...(isWrong ? { class: "wrong" } : {}) });
  const places = length === 1 ? `${at}` : `${at} to ${last}`;
  row.append(made("td", places, { class: "characters" }));
  row.append(made("td", text.slice(at, last + 1), { class: "text" }));
  const fault = versionNotOpened(text) ? "not opened here" : "here is the fault";
  row.append(made("td", isWrong ? `${meaning}: ${fault}` : meaning, { class: "meaning" }));
  return row;
}

function showParts(text, range) {
  const rows = partsOf(text).map((it) => partRow(text, it, range));
  element("unwrap-parts").replaceChildren(...rows);
}

/** Spaces around a pasted block, line feeds and what is not seen in it are no part of it. */
const blockText = (text) => withoutUnseen(text).trim().replace(/[\r\n]/g, "");

function unwrap() {
  renew(element("block-unwrap"));
  const text = read("unwrap-text", blockText);
  if (versionNotOpened(text)) {
    showHeader(text);
    return;
  }
  const kbpk = read("unwrap-kbpk", tdesKey);
  showParts(text);
  if (!kbpk) return;
  try {
    const { key } = calls.unwrap(kbpk, utf8(text));
    show("unwrap-key", hex(key));
    show("unwrap-kcv", hex(calls.checkValue(key)));
    show("unwrap-cmac", hex(calls.cmacCheckValue(key)));
    show("unwrap-mac", text.slice(-16).toUpperCase());
  } catch (fault) {
    if (!(fault instanceof Fault)) throw fault;
    const range = placeOfFault(text, fault.number);
    const [from, to] = range;
    const place = from === to ? `Character ${from}` : `Characters ${from} to ${to}`;
    const words = whyNotOpened(text, fault);
    setFault("unwrap-text", text ? `${words}. ${place} of ${text.length}.` : `${words}.`, range);
    showParts(text, range);
  }
}

/** Shows the header of a block of another version, whose protection key may be of any kind. */
function showHeader(text) {
  const range = [0, 0];
  const words = `This is ${versionNotOpened(text)}. Its header is read, and it is not opened here.`;
  setFault("unwrap-text", words, range);
  showParts(text, range);
}

/** Shows the header fields of the key block to be made in words. */
function showWords() {
  for (const [name] of HEADER) {
    const words = WORDS[name === "version" ? "key-version" : name];
    const text = element(`wrap-${name}`).value;
    element(`wrap-${name}-words`).textContent = text ? words(text) : "";
  }
}

function wrap() {
  renew(element("block-wrap"));
  showWords();
  element("wrap-doubts").textContent = "";
  const kbpk = read("wrap-kbpk", tdesKey);
  const fields = HEADER.map(([name, count]) => read(`wrap-${name}`, characters(count)));
  const key = read("wrap-key", tdesKey);
  const padding = read("wrap-padding", bytesOf);
  if ([kbpk, ...fields, key, padding].includes(undefined)) return;
  attempt(
    (fault) => (fault.number === STATUS.BLOCK_PAD_LENGTH ? "wrap-padding" : wrongField()),
    () => {
      show("wrap-text", ascii(calls.wrap(kbpk, joined(...fields), key, padding)));
      showDoubts(fields);
    },
  );
}

/** Shows what is doubtful about a block that is made. */
function showDoubts(fields) {
  const header = Object.fromEntries(HEADER.map(([name], at) => [name, ascii(fields[at])]));
  element("wrap-doubts").textContent = doubtsOf(header).join(" ");
}

/** The first header field with a character that cannot be printed. */
function wrongField() {
  const [name] = HEADER.find(([it]) => /[^ -~]/.test(element(`wrap-${it}`).value)) ?? ["usage"];
  return `wrap-${name}`;
}

/** Puts random padding in its field: as much as fills the last block, and hides a key's length. */
function pad() {
  const key = read("wrap-key", tdesKey);
  const bytes = new Uint8Array(key?.length === 24 ? 6 : 14);
  element("wrap-padding").value = hex(crypto.getRandomValues(bytes));
  wrap();
}

export function startBlock() {
  follow(element("block-unwrap"), unwrap);
  follow(element("block-wrap"), wrap);
  element("wrap-random").addEventListener("click", pad);
}
