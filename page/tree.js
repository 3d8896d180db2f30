// The panel "Tree and registers": a terminal over its whole life.
import * as calls from "./calls.js";
import {
  LIFE, SPENT, counterAt, counterOf, lastPlace, ones, placeOf, withCounter,
} from "./counters.js";
import { initialKeyOf } from "./derive.js";
import { attempt, element, read, renew, setFault, show } from "./fields.js";
import { counted, hex, hexCounter, serialNumber, whole } from "./hexadecimal.js";
import { offer } from "./hooks.js";
import { draw } from "./picture.js";
import { changesOf, fillRegisters, nextCounter, registerName, registersOf } from "./registers.js";
import { keepingFocus, nameNodes, startNodes } from "./tree_nodes.js";

// The image of the terminal that is shown, or undefined while a field has a fault.
let image;

/** Makes the terminal anew from the fields. */
function renewed() {
  renew(element("panel-tree"));
  const ksn = read("tree-ksn", serialNumber);
  const initial = initialKeyOf("tree", ksn);
  image = initial && attempt(() => "tree-ksn", () => calls.registersAt(initial, ksn));
  element("tree-said").textContent = "";
  showTerminal([]);
}

function showTerminal(changes) {
  const next = image ? nextCounter(image) : undefined;
  element("tree-take").disabled = !image || next === SPENT;
  element("panel-tree").toggleAttribute("data-spent", next === SPENT);
  element("tree-shown").hidden = !image;
  if (!image) {
    element("tree-registers").replaceChildren();
    return;
  }
  fillRegisters(element("tree-registers"), image, changes);
  const place = next === SPENT ? LIFE + 1 : placeOf(next);
  for (const id of ["tree-place", "tree-slider"]) element(id).value = Math.min(place, LIFE);
  showPicture(next);
  showThief(place, next);
}

function showPicture(next) {
  const picture = element("tree-picture");
  keepingFocus(picture, () => {
    draw(picture, next);
    nameNodes(picture, image.slice(1, 11));
  });
}

/** What a thief who opens the terminal now could derive, and what not. */
function showThief(place, next) {
  const left = LIFE + 1 - place;
  const full = registersOf(image).filter((it) => it.key).length;
  element("tree-left").textContent = counted(left);
  element("tree-can").textContent = canDerive(left, next, full);
  element("tree-cannot").textContent = cannotDerive(place - 1);
}

function canDerive(left, next, full) {
  if (left === 0) return "Nothing: all registers are empty.";
  const first = hex(withCounter(image.slice(1, 11), next));
  if (left === 1) return `The key of the last number, ${first}: it is in a register.`;
  return `The keys of all ${counted(left)} numbers from ${first} on: `
    + `they follow from the ${full === 1 ? "one key" : `${full} keys`} in the registers.`;
}

function cannotDerive(used) {
  if (used === 0) return "The initial key. No number is used yet.";
  const keys = used === 1 ? "The key of the one used number"
    : `The keys of the ${counted(used)} used numbers, those of their ancestors`;
  return `${keys}, and the initial `
    + "key: none of them is in a register, and without breaking TDES no step to a key is reversed.";
}

/** Takes the next number of the terminal that is shown. */
function taken() {
  renew(element("panel-tree"));
  const before = image;
  const { image: after, key, ksn } = calls.take(before);
  image = after;
  const next = nextCounter(after);
  element("tree-ksn").value = next === SPENT ? "" : hex(calls.numberOf(after));
  // A spent terminal has no number: the working set keeps the last one.
  if (next !== SPENT) offer("tree-ksn");
  const changes = changesOf(before, after);
  showTerminal(changes);
  show("tree-taken-number", hex(ksn));
  show("tree-taken-key", hex(key));
  element("tree-said").textContent = saidOf(counterOf(ksn), changes, next);
}

/** What a transaction did to the registers, in words. */
function saidOf(counter, changes, next) {
  const used = lastPlace(counter);
  const count = ones(counter);
  const name = `Counter ${hexCounter(counter)}, ${count} one bit${count === 1 ? "" : "s"}`;
  const end = next === SPENT ? " That was the last number: the terminal is spent." : "";
  const filled = changes.filter((it) => it === "filled").length;
  return `${name}: ${registerName(used)} is used and emptied. ${filledBy(filled, used)}.${end}`;
}

/** Which registers the children of a used number fill: those of the places below its own. */
function filledBy(filled, used) {
  if (filled > 1) return `Its ${filled} children fill places 0 to ${filled - 1}`;
  if (filled === 1) return "Its child fills place 0";
  return `It fills none: ${used ? "a child would have eleven one bits" : "place 0 is the lowest"}`;
}

/** Moves the terminal to a place of its life. */
function moved(place) {
  const ksn = attempt(() => "tree-ksn", () => serialNumber(lastNumber()));
  if (!ksn) return;
  element("tree-ksn").value = hex(withCounter(ksn, counterAt(place)));
  offer("tree-ksn");
  renewed();
}

/** The text of the key serial number; a spent terminal's field is empty, and its image has it. */
function lastNumber() {
  const text = element("tree-ksn").value;
  return text === "" && image ? hex(image.slice(1, 11)) : text;
}

function typedPlace() {
  const text = element("tree-place").value;
  const place = read("tree-place", whole(1, LIFE));
  if (place === undefined) showNone();
  else moved(place);
  // What is being typed stays as it is.
  element("tree-place").value = text;
}

function showNone() {
  const words = element("tree-place-fault").textContent;
  renew(element("panel-tree"));
  setFault("tree-place", words);
  image = undefined;
  element("tree-said").textContent = "";
  showTerminal([]);
}

export function startTree() {
  const slider = element("tree-slider");
  let isAsked = false;
  // Of the places that a frame passes, the last one is shown.
  const slid = () => {
    if (isAsked) return;
    isAsked = true;
    requestAnimationFrame(() => {
      isAsked = false;
      moved(Number(slider.value));
    });
  };
  element("panel-tree").addEventListener("input", ({ target }) => {
    if (target === slider) slid();
    else if (target.id === "tree-place") typedPlace();
    else renewed();
  });
  element("tree-take").addEventListener("click", taken);
  startNodes(element("tree-picture"));
  renewed();
}
