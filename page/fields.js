// Fields and results of the page: reading and showing them, and faults beside the fields.
import { Fault } from "./faults.js";

export const element = (id) => document.getElementById(id);

/** An element with a text, and with attributes. Texts alone are set: no markup is ever read. */
export function made(name, text = "", attributes = {}) {
  const it = document.createElement(name);
  it.textContent = text;
  for (const [key, value] of Object.entries(attributes)) it.setAttribute(key, value);
  return it;
}

/** A table with these names of its columns, which `fill` gives its rows; it has a name itself. */
export function tableOf(names, fill, name = names.join(", ")) {
  const table = made("table", "", { "aria-label": name });
  const head = table.createTHead().insertRow();
  for (const name of names) head.append(made("th", name, { scope: "col" }));
  fill(table.createTBody());
  const wide = made("div", "", { class: "wide" });
  wide.append(table);
  return wide;
}

/** Gives each field the places of its note and its fault, and each result its button. */
export function prepare() {
  for (const field of document.querySelectorAll(".field :is(input, textarea, select)")) {
    const places = ["note", "fault"].map((name) =>
      made("p", "", { id: `${field.id}-${name}`, class: name, "aria-live": "polite" }));
    const others = field.getAttribute("aria-describedby") ?? "";
    const ids = places.map((it) => it.id).join(" ");
    field.setAttribute("aria-describedby", `${others} ${ids}`.trim());
    field.closest(".field").append(...places);
  }
  for (const output of document.querySelectorAll("output")) {
    // A reader of the screen is told of faults, and not of each result at each key.
    output.setAttribute("aria-live", "off");
    if (!output.dataset.name) continue;
    const button = made("button", "Copy", { type: "button", class: "copy", disabled: "" });
    button.dataset.copies = output.id;
    button.setAttribute("aria-label", `Copy ${output.dataset.name}`);
    button.addEventListener("click", () => copy(output.textContent, output));
    output.after(button);
  }
}

/** Empties the results and the faults in a part of the page. */
export function renew(part) {
  for (const output of part.querySelectorAll("output")) show(output.id, "");
  for (const fault of part.querySelectorAll(".fault")) setFault(fault.id.slice(0, -6), "");
}

/** Shows a result. */
export function show(id, text) {
  const output = element(id);
  output.textContent = text;
  const button = output.nextElementSibling;
  if (button?.dataset.copies === id) button.disabled = text === "";
}

/** Shows a fault beside a field, or takes it away; `range` has its first and last place. */
export function setFault(id, words, range) {
  const place = element(`${id}-fault`);
  place.textContent = words;
  delete place.dataset.from;
  delete place.dataset.to;
  if (range) [place.dataset.from, place.dataset.to] = range;
  if (words) element(id).setAttribute("aria-invalid", "true");
  else element(id).removeAttribute("aria-invalid");
}

/**
 * What a field has by its reader; undefined where it has none, with the fault beside it. A field
 * that lacks what it is to show says so. A reader may have a note, which stands beside the field.
 */
export function read(id, reader) {
  const field = element(id);
  setNote(id, "");
  return attempt(() => id, () => {
    if (field.dataset.lacks) throw new Fault(0, field.dataset.lacks);
    return reader(field.value, (words) => setNote(id, words));
  });
}

/** Shows a note beside a field, or takes it away. */
function setNote(id, words) {
  const place = element(`${id}-note`);
  if (place.textContent !== words) place.textContent = words;
}

/** What a job gives; undefined where it ends with a Fault, which is shown beside `fieldOf(fault)`. */
export function attempt(fieldOf, job) {
  try {
    return job();
  } catch (fault) {
    if (!(fault instanceof Fault)) throw fault;
    const words = `${fault.message.charAt(0).toUpperCase()}${fault.message.slice(1)}.`;
    setFault(fieldOf(fault), words);
    return undefined;
  }
}

/** Calls `renewed` now, and whenever a field in a part of the page changes. */
export function follow(part, renewed) {
  part.addEventListener("input", renewed);
  renewed();
}

/** Puts a text on the clipboard; where that is refused, it is to be copied from `shown`. */
export async function copy(text, shown) {
  try {
    await navigator.clipboard.writeText(text);
    say("Copied.");
  } catch {
    say(shown ? copySelected(shown) : "The clipboard is refused: the address of the page is the link.");
  }
}

/** Selects a result and copies it as the keys of a browser do; the answer says what came of it. */
function copySelected(shown) {
  getSelection().selectAllChildren(shown);
  if (document.execCommand("copy")) return "Copied.";
  return "The clipboard is refused. The text is selected: copy it by the keys of the browser.";
}

let silence;

/** Says a sentence for a while, beside the page and to a reader of the screen. */
export function say(text) {
  clearTimeout(silence);
  element("said").textContent = text;
  silence = setTimeout(() => { element("said").textContent = ""; }, 4000);
}
