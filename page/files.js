// The panel "Frames and files", its files: the image of a terminal, a log of used numbers, or a
// journal of payments and reversals.
import { STATUS } from "./call_table.js";
import * as calls from "./calls.js";
import { SPENT, withCounter } from "./counters.js";
import { bytesOfText } from "./dumps.js";
import { attempt, element, follow, made, read, renew, setFault, tableOf } from "./fields.js";
import { guessed } from "./file_kinds.js";
import { damageOfImage, damageOfLog, pastOf } from "./file_parts.js";
import { givenKey, initialKeyBy } from "./frames.js";
import { hex } from "./hexadecimal.js";
import { damageOfJournal, journalParts } from "./journal_header.js";
import { logParts } from "./log.js";
import { fillRegisters, nextCounter, registerName, registersOf } from "./registers.js";

const MOST_ROWS = 1000;

// The file that is shown, with its name, its bytes and the field of its faults; and how many were
// chosen, dropped or pasted.
let file;
let asked = 0;

/** Whether the registers hold the keys of the given initial or base derivation key, in words. */
function keysCheck(image) {
  const given = givenKey();
  const next = nextCounter(image);
  const isTransaction = element("frame-key-kind").value === "transaction";
  if (next === SPENT) return made("p", "All registers are empty.", { class: "note" });
  if (!given || isTransaction) {
    const words = "No base derivation key or initial key is given: the keys are not compared.";
    return made("p", words, { class: "note" });
  }
  const number = withCounter(image.slice(1, 11), next);
  const wanted = registersOf(calls.registersAt(initialKeyBy(given, number), number));
  const differs = registersOf(image).find(({ key, place }) =>
    key && hex(key) !== hex(wanted[place].key));
  const words = differs
    ? `In ${registerName(differs.place)} is another key than the given one leads to.`
    : "Each register has the key that the given one leads to.";
  return made("p", words, { "data-check": "keys", "data-result": differs ? "bad" : "good" });
}

/** The next number of an image, as the module reads it: the page never knows better. */
function numberIn(image) {
  try {
    return hex(calls.numberOf(image));
  } catch (fault) {
    if (fault.number !== STATUS.SPENT) throw fault;
    return "none, the terminal is spent";
  }
}

function imageParts(image) {
  const iksn = image.slice(1, 11);
  const past = pastOf(image).map(hex).join(", ") || "none";
  const lines = [
    `Image of version ${image[0]}.`, `Initial key serial number: ${hex(iksn)}`,
    `Next number: ${numberIn(image)}`, `Past initial key serial numbers: ${past}`,
  ].map((it) => made("p", it));
  const head = ["register", "place j", "change", "number", "key", "check value", "numbers below"];
  const table = tableOf(head, (it) => fillRegisters(it, image), "The registers of the image");
  table.firstChild.className = "registers";
  return [...lines, keysCheck(image), table];
}

// Of each kind of file its name, its damage, and what is shown of it.
const KINDS = {
  image: ["an image", damageOfImage, imageParts],
  log: ["a log", damageOfLog, logParts],
  journal: ["a journal", damageOfJournal, journalParts],
};

/** What the file is read as: what was chosen, or else what it looks like. */
function takenFor(bytes) {
  const chosen = element("frame-file-kind").value;
  return chosen === "guess" ? guessed(bytes) : { kind: chosen, doubt: "" };
}

function renewed() {
  renew(element("frame-files"));
  const found = element("file-found");
  found.replaceChildren();
  delete found.dataset.kind;
  element("file-taken").textContent = "";
  const given = file ?? pasted();
  if (!given) return;
  const { kind, doubt } = takenFor(given.bytes);
  element("file-taken").textContent = doubt;
  const [name, damageOf, partsOf] = KINDS[kind];
  const damage = damageOf(given.bytes);
  if (damage) {
    const [words, from, to] = damage;
    const place = from === to ? `Byte ${from}` : `Bytes ${from} to ${to}`;
    setFault(given.field, `${given.name}, as ${name}: ${place}: ${words}.`, [from, to]);
    return;
  }
  const parts = attempt(() => given.field, () => partsOf(given.bytes, MOST_ROWS));
  if (!parts) return;
  found.dataset.kind = kind;
  found.append(made("h4", given.name), ...parts);
}

/** The bytes that are pasted as text; undefined where there are none, or no bytes. */
function pasted() {
  const bytes = read("file-text", bytesOfText);
  return bytes?.length ? { name: "Pasted text", bytes, field: "file-text" } : undefined;
}

/** Shows what is pasted in the place of a file. */
function takeText() {
  asked += 1;
  file = undefined;
  element("frame-file").value = "";
  renewed();
}

/** Keys are compared with those of an image alone: no other file is read again for them. */
function renewedKey() {
  if (element("file-found").dataset.kind === "image") renewed();
}

/** Reads a file and shows it, but where another one was given meanwhile. */
async function take(one) {
  if (!one) return;
  asked += 1;
  const own = asked;
  file = undefined;
  element("file-text").value = "";
  renewed();
  const bytes = await one.arrayBuffer().catch(() => undefined);
  if (own !== asked) return;
  if (bytes) file = { name: one.name, bytes: new Uint8Array(bytes), field: "frame-file" };
  renewed();
  if (!bytes) setFault("frame-file", `${one.name} cannot be read.`);
}

export function startFiles() {
  // A file that changed meanwhile is read again where it is chosen again.
  element("frame-file").addEventListener("click", ({ target }) => { target.value = ""; });
  element("frame-file").addEventListener("change", ({ target }) => take(target.files[0]));
  // A file that is dropped anywhere else must not take the page's place.
  document.addEventListener("dragover", (event) => event.preventDefault());
  document.addEventListener("drop", (event) => {
    event.preventDefault();
    if (!element("panel-frame").hidden) take(event.dataTransfer.files[0]);
  });
  element("file-text").addEventListener("input", takeText);
  element("frame-key").addEventListener("input", renewedKey);
  element("frame-key-kind").addEventListener("input", renewedKey);
  follow(element("frame-file-kind"), renewed);
}
