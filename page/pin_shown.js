// A PIN block in clear, shown nibble by nibble, with what is wrong in words.
import { made, tableOf } from "./fields.js";
import { hex } from "./hexadecimal.js";
import { accountField, firstWrong, likelyCause, partsOfField, pinField } from "./pin_field.js";

const NIBBLES = 16;
/** What is not known of a PIN that a block holds. */
export const RESTS_ON_PAN = "Its digits from the third on rest on the PAN: under another PAN the same"
  + " block may hold another PIN, and nothing here tells which PAN is right.";

function stripRow(name, texts, wrong) {
  const row = made("tr");
  row.append(made("th", name, { scope: "row" }));
  for (const [at, text] of Array.from(texts).entries()) {
    row.append(made("td", text, wrong.includes(at + 1) ? { class: "wrong" } : {}));
  }
  return row;
}

/** Block, account field and PIN field below each other, a column for each nibble. */
function strip(clear, account, field, parts) {
  const wrong = parts.flatMap((it) => it.wrong);
  const marks = parts.map((it) => it.mark.repeat(it.to - it.from + 1)).join("");
  const numbers = Array.from({ length: NIBBLES }, (_, at) => `${at + 1}`);
  const table = tableOf(["nibble", ...numbers], (body) => {
    body.append(stripRow("block in clear", hex(clear), []));
    body.append(stripRow("account field", account, []));
    body.append(stripRow("PIN field", field, wrong));
    body.append(stripRow("part", marks, wrong));
  }, "The PIN block, nibble by nibble");
  table.querySelector("table").className = "nibbles";
  return table;
}

function partLine(part, field) {
  const { name, mark, from, to, wrong, words } = part;
  const place = from === to ? `nibble ${from}` : `nibbles ${from} to ${to}`;
  const text = `${mark}, ${name}, ${place}: ${words}`;
  if (wrong.length === 0) return made("li", text, { "data-part": name });
  const why = firstWrong(field, [part]);
  return made("li", `Wrong: ${text}; ${why}`, { "data-part": name, "data-result": "bad" });
}

/** The elements that show the PIN field of a block in clear under a right PAN. */
export function shownField(clear, pan) {
  const field = pinField(clear, pan);
  const parts = partsOfField(field);
  const list = made("ul", "", { class: "parts" });
  list.append(...parts.map((it) => partLine(it, field)));
  return [strip(clear, accountField(pan), field, parts), list];
}

/** Why a block in clear holds no PIN under a PAN: the first wrong nibble, and what is likely. */
export function whyNoPin(clear, pan) {
  const field = pinField(clear, pan);
  const parts = partsOfField(field);
  const words = firstWrong(field, parts);
  return `${words.charAt(0).toUpperCase()}${words.slice(1)}. ${likelyCause(clear, parts)}`;
}
