// The address of the page: its fragment has the panel, the fields that are no secrets, and which
// fields are unhooked from the working set.
// Keys, PINs, PANs and components never stand there: a field does only where it has `data-link`,
// and what it holds has the form that the attribute names.
import { Fault } from "./faults.js";
import { element } from "./fields.js";
import { fullNumber, hex, whole } from "./hexadecimal.js";
import { changedHooks, isHooked, restoreHooks } from "./hooks.js";
import { KINDS } from "./working_set.js";

/** A reader of so many characters that can be printed. */
const printed = (count) => (text) => {
  if (text.length === count && /^[!-~]*$/.test(text)) return text;
  throw new Fault(0, "these are no such characters");
};

function kindOfKey(text) {
  if (KINDS.includes(text)) return text;
  throw new Fault(0, "this is no kind of key");
}

// By the attribute what a field has in an address. A number of 16 digits is filled elsewhere; it may
// be a PAN in the wrong field, and stands in no address.
const READERS = {
  ksn: (text) => hex(fullNumber(text)), amount: (text) => whole(0, 4294967295)(text).toString(),
  two: printed(2), one: printed(1), kind: kindOfKey,
};
// Between the names of fields.
const COMMA = ".";

const linked = () => document.querySelectorAll("[data-link]");

/** A text as it stands in an address for a field; undefined where it has no such form. */
function formed(field, text) {
  try {
    return READERS[field.dataset.link](text);
  } catch (fault) {
    if (fault instanceof Fault) return undefined;
    throw fault;
  }
}

/** Whether a field stands in the address of a panel: what the working set says already does not. */
function isTold(field, panel) {
  if (isHooked(field) || field.hasAttribute("aria-invalid")) return false;
  const own = field.closest("[role=tabpanel]");
  return !own || own.id === `panel-${panel}` || "set" in field.dataset;
}

let waiting;

/** Writes the address soon: a browser counts how often a page does so. */
export function writeLinkSoon(panel) {
  clearTimeout(waiting);
  waiting = setTimeout(() => writeLink(panel), 200);
}

/** Writes the address of what is shown now. */
export function writeLink(panel) {
  clearTimeout(waiting);
  const words = new URLSearchParams({ panel });
  for (const [word, names] of Object.entries(changedHooks())) {
    if (names.length) words.set(word, names.join(COMMA));
  }
  for (const field of linked()) {
    const value = isTold(field, panel) ? formed(field, field.value) : undefined;
    if (value !== undefined) words.set(field.id, value);
  }
  if (location.hash !== `#${words}`) history.replaceState(null, "", `#${words}`);
}

/** Puts the fields of the address in their places; the answer is the panel that it names, or "". */
export function readLink() {
  const words = new URLSearchParams(location.hash.slice(1));
  const names = (word) => (words.get(word) ?? "").split(COMMA);
  restoreHooks({ unhooked: names("unhooked"), hooked: names("hooked") });
  for (const field of linked()) {
    const value = formed(field, words.get(field.id) ?? "");
    if (value !== undefined && field.value !== value) {
      field.value = value;
      field.dispatchEvent(new Event("input", { bubbles: true }));
    }
  }
  const panel = words.get("panel") ?? "";
  return /^[a-z]+$/.test(panel) && element(`panel-${panel}`) ? panel : "";
}
