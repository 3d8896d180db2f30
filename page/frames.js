// The panel "Frames and files", its frames: fields in words, checks under a key, damage.
import * as calls from "./calls.js";
import { withCounter } from "./counters.js";
import { bytesOfText } from "./dumps.js";
import { Fault } from "./faults.js";
import { element, follow, made, read, renew, setFault, tableOf } from "./fields.js";
import { findKeyOf } from "./find.js";
import { checksOf } from "./frame_checks.js";
import { KINDS, partsOfFrame } from "./frame_parts.js";
import { damageAt } from "./frame_whole.js";
import { doubleKey } from "./hexadecimal.js";

// The bytes of the longest frame, and how many frames are shown.
const MOST_BYTES = 64;
const MOST_FRAMES = 100;

const keyIfAny = (text) => (text.trim() === "" ? null : doubleKey(text));

/** The key that the user gives for checks: null where there is none, undefined with a fault. */
export function givenKey() {
  return read("frame-key", keyIfAny);
}

/** The initial key of a number by the given key; the given key is no transaction key. */
export function initialKeyBy(key, ksn) {
  const isBase = element("frame-key-kind").value === "bdk";
  return isBase ? calls.initialKey(key, withCounter(ksn, 0)) : key;
}

function transactionKeyBy(key, ksn) {
  if (element("frame-key-kind").value === "transaction") return key;
  return calls.deriveFromInitial(initialKeyBy(key, ksn), ksn);
}

const TITLES = {
  request: "Request", reply: "Accepted reply", refusal: "Refusal", reversal: "Reversal",
  "reversal-reply": "Reversal's reply",
};
// The calls of the module that read a frame.
const READERS = {
  request: calls.readRequest, reply: calls.readReply, refusal: calls.readRefusal,
  reversal: calls.readReversal, "reversal-reply": calls.readReversalReply,
};

/** The key serial number of a frame. */
const numberIn = (frame, kind) => READERS[kind](frame).ksn;

/** Why no transaction has this number; nothing where one may. */
export function usableNote(ksn) {
  try {
    calls.checkUsable(ksn);
    return "";
  } catch (fault) {
    if (!(fault instanceof Fault)) throw fault;
    return fault.message;
  }
}

function shownFrame(frame, at, given) {
  const kind = KINDS[frame[3]];
  const ksn = numberIn(frame, kind);
  const section = made("section", "", { "data-kind": kind, class: "frame" });
  section.append(made("h4", `${TITLES[kind]}, bytes ${at} to ${at + frame.length - 1}`));
  const unusable = usableNote(ksn);
  // A refusal tells of the number that it refuses: that one may be of no transaction.
  if (unusable && kind !== "refusal") section.append(alarm(unusable));
  const note = (name) => (name === "ksn" ? unusable : "");
  const rows = partsOfFrame(frame).map((it) => partRow(it, at, note(it.name)));
  section.append(tableOf(["bytes", "hexadecimal", "meaning"], (it) => it.append(...rows),
    `${TITLES[kind]}: its bytes and their meaning`));
  const keyKind = element("frame-key-kind").value;
  section.append(...checksOf(frame, given && transactionKeyBy(given, ksn),
    { kind, ksn, keyKind, isOfNone: unusable !== "" }));
  if (section.querySelector("[data-check=mac][data-result=bad]")) {
    section.append(...buttonToFind(frame, at, given));
  }
  return section;
}

/** The sentence about a number that no transaction has: it stands before all else. */
const alarm = (words) => made("p", `${words.charAt(0).toUpperCase()}${words.slice(1)}.`,
  { "data-check": "number", "data-result": "bad" });

/** A button that looks for the key of a frame; nothing where the key for checks has one number alone. */
function buttonToFind(frame, at, given) {
  const kind = element("frame-key-kind").value;
  if (kind === "transaction") return [];
  const button = made("button", "Find the key of this MAC", {
    type: "button", id: `frame-find-${at}`, class: "plain",
  });
  button.addEventListener("click", () => findKeyOf(frame, kind, given));
  const act = made("p", "", { class: "act" });
  act.append(button);
  return [act];
}

function partRow({ name, at, length, text, meaning }, front, note) {
  const row = made("tr", "", { "data-part": name });
  const last = front + at + length - 1;
  row.append(made("td", length === 1 ? last : `${front + at} to ${last}`, { class: "bytes" }));
  row.append(made("td", text, { class: "text" }));
  row.append(made("td", note ? `${meaning}: ${note}` : meaning, { class: "meaning" }));
  return row;
}

function showDamage([words, from, to], at) {
  const range = [at + from, at + to];
  const place = from === to ? `Byte ${range[0]}` : `Bytes ${range.join(" to ")}`;
  setFault("frame-bytes", `${place}: ${words}.`, range);
}

function renewed() {
  renew(element("frame-frames"));
  element("frame-found").replaceChildren();
  element("frame-more").textContent = "";
  const given = givenKey();
  const bytes = read("frame-bytes", bytesOfText);
  if (!bytes || given === undefined) return;
  let count = 0;
  for (let at = 0; at < bytes.length;) {
    const rest = bytes.slice(at, at + MOST_BYTES);
    const damage = damageAt(rest, bytes.length - at);
    if (damage) {
      showDamage(damage, at);
      break;
    }
    const frame = rest.slice(0, calls.frameLength(rest));
    if (count < MOST_FRAMES) element("frame-found").append(shownFrame(frame, at, given));
    count += 1;
    at += frame.length;
  }
  if (count > MOST_FRAMES) {
    element("frame-more").textContent = `${count - MOST_FRAMES} more frames are not shown.`;
  }
}

export function startFrames() {
  follow(element("frame-frames"), renewed);
}
