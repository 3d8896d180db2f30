// The image of a terminal (docs/FORMATS.md): its 21 registers, and their table.
import * as calls from "./calls.js";
import { BITS, countBelow, heldIn, withCounter } from "./counters.js";
import { made } from "./fields.js";
import { counted, hex } from "./hexadecimal.js";

const FIRST_KEY = 14;

/** The next counter of an image, or SPENT. */
export const nextCounter = (image) => image[11] << 16 | image[12] << 8 | image[13];

/** A register as the standard calls it, with its place. */
export const registerName = (place) => `register ${BITS - place} (place ${place})`;

/** The registers of an image, by their places: the counter whose key each has, and the key. */
export function registersOf(image) {
  const next = nextCounter(image);
  return Array.from({ length: BITS }, (_, place) => {
    const counter = heldIn(place, next);
    const at = FIRST_KEY + 16 * place;
    return { place, counter, key: counter === undefined ? undefined : image.slice(at, at + 16) };
  });
}

const CELLS = ["register", "place", "change", "number", "key", "kcv", "below"];

function emptyRow(place) {
  const row = made("tr", "", { "data-place": place });
  for (const name of CELLS) {
    const cell = made("td", "", { class: name });
    const holder = name === "number" ? cell.appendChild(numberButton()) : cell;
    holder.append("");
    row.append(cell);
  }
  return row;
}

/** By a click at its row, or at this button of it, a number comes into the working set. */
const numberButton = () =>
  made("button", "", { type: "button", class: "choose", title: "Take it into the working set" });

/** Shows a text in a cell. One that stays is not written, so that its place is not laid out again. */
function fillCell(cell, text) {
  const button = cell.querySelector("button");
  const shown = (button ?? cell).firstChild;
  if (shown.nodeValue === text) return;
  shown.nodeValue = text;
  if (!button) return;
  button.disabled = text === "";
  if (text) cell.parentNode.dataset.chooses = text;
  else delete cell.parentNode.dataset.chooses;
}

/** The texts of a register's row; `change` is "used", "filled" or nothing. */
function textsOf(iksn, { place, counter, key }, change) {
  const said = change === "used" ? "used, emptied" : change ?? "";
  const front = [BITS - place, place, said].map(String);
  if (!key) return [...front, "", "empty", "", ""];
  const below = counted(countBelow(counter));
  return [...front, hex(withCounter(iksn, counter)), hex(key), hex(calls.checkValue(key)), below];
}

/** Shows an image's registers in a table's body, from the standard's register 1 on. */
export function fillRegisters(body, image, changes = []) {
  const iksn = image.slice(1, 11);
  const registers = registersOf(image).reverse();
  // The rows stay, so that a step of the slider changes texts alone.
  if (body.rows.length !== BITS) body.replaceChildren(...registers.map((it) => emptyRow(it.place)));
  for (const [at, register] of registers.entries()) {
    const row = body.rows[at];
    const change = changes[register.place];
    row.dataset.state = register.key ? "held" : "empty";
    if (change) row.dataset.change = change;
    else delete row.dataset.change;
    for (const [cell, text] of textsOf(iksn, register, change).entries()) {
      fillCell(row.cells[cell], text);
    }
  }
}

/** The change of each register by a transaction: "used", "filled" or undefined. */
export function changesOf(before, after) {
  const old = registersOf(before);
  return registersOf(after).map(({ counter }, place) => {
    if (counter === old[place].counter) return undefined;
    return counter === undefined ? "used" : "filled";
  });
}
