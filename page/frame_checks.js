// What is right and what is wrong with a frame under a transaction key, and why.
import * as calls from "./calls.js";
import { withCounter } from "./counters.js";
import { Fault } from "./faults.js";
import { made } from "./fields.js";
import { MAC, textOfMac } from "./frame_whole.js";
import { ascii, hex } from "./hexadecimal.js";
import { USES } from "./key_uses.js";
import { macsOf, nameOfMac } from "./mac_kinds.js";
import { RESTS_ON_PAN, whyNoPin } from "./pin_shown.js";

// Of each kind of frame whose key its MAC has.
const MAC_KEYS = {
  request: { keyOf: calls.requestKey, words: "request key" },
  reply: { keyOf: calls.responseKey, words: "response key" },
  reversal: { keyOf: calls.requestKey, words: "request key" },
  "reversal-reply": { keyOf: calls.responseKey, words: "response key" },
};

const macIn = (frame) => frame.slice(-MAC);

/** Throws BadMac where a frame has another MAC under its transaction key. */
function checkMac(key, frame, kind, ksn) {
  if (kind === "request") calls.checkRequest(key, frame);
  else if (kind === "reply") calls.checkReply(key, ksn, frame);
  else if (kind === "reversal") calls.checkReversal(key, frame);
  else calls.checkReversalReply(key, ksn, calls.readReversalReply(frame).reversed, frame);
}

/** The line of a check that ends well, and that of a fault. */
const good = (name, words) => made("p", words, { "data-check": name, "data-result": "good" });
const bad = (name, words) => made("p", words, { "data-check": name, "data-result": "bad" });

/** What `job` gives; where it ends with a Fault, what `explain` makes of that. */
function unlessFault(job, explain) {
  try {
    return job();
  } catch (fault) {
    if (!(fault instanceof Fault)) throw fault;
    return explain(fault);
  }
}

function valueLine(name, words, value) {
  const line = made("p", `${words} `, { "data-value": name });
  line.append(made("code", value));
  return line;
}

// By the kind of the key for checks whose the keys are that follow from it. A base derivation key has those
// of each number; an initial key may be that of another terminal, and a transaction key of another number.
const WHOSE = {
  bdk: "of this number", initial: "that follows from the given initial key",
  transaction: "that follows from the given transaction key",
};

/** Which other MAC, under which key of the number, a frame has: a sentence. */
function otherMac(key, frame, keyKind) {
  const texts = [["", textOfMac(frame)], [", made of the length too", frame.slice(0, -MAC)]];
  for (const [words, text] of texts) {
    for (const use of USES) {
      const name = nameOfMac(macIn(frame), macsOf(use.keyOf(key), text));
      if (name) return `The MAC found is ${name}, under the ${use.words}${words}.`;
    }
  }
  return `No key ${WHOSE[keyKind]} makes the MAC found: a byte of the frame was changed, or the number or`
    + " the key for checks is another.";
}

/** Under which key a MAC is right, by the kind of the key for checks. */
const RIGHT_UNDER = {
  bdk: () => "under the key of this number",
  initial: (ksn) => "under the key that the given initial key has for this counter; whether it is the"
    + ` initial key of ${hex(withCounter(ksn, 0))} is not known`,
  transaction: (ksn) =>
    `under the given transaction key; whether that is the key of ${hex(ksn)} is not known`,
};

function macChecks(key, frame, { kind, ksn, keyKind }) {
  return unlessFault(() => {
    checkMac(key, frame, kind, ksn);
    return [good("mac", `MAC: right ${RIGHT_UNDER[keyKind](ksn)}.`)];
  }, (fault) => {
    const { keyOf, words } = MAC_KEYS[kind];
    const expected = calls.retailMac(keyOf(key), textOfMac(frame));
    return [
      bad("mac", `MAC: ${fault.message}.`),
      valueLine("expected", `Expected, the retail MAC under the ${words}:`, hex(expected)),
      valueLine("found", "Found:", hex(macIn(frame))),
      made("p", otherMac(key, frame, keyKind), { class: "note", "data-why": "mac" }),
    ];
  });
}

function pinChecks(key, frame) {
  return unlessFault(() => [
    good("pin", `PIN: ${ascii(calls.requestPin(key, frame))}`),
    made("p", RESTS_ON_PAN, { class: "note", "data-rests": "pin" }),
  ], (fault) => {
    const { pan, block } = calls.readRequest(frame);
    const clear = calls.decipher(calls.pinKey(key), block);
    return [
      bad("pin", `PIN: ${fault.message}.`),
      valueLine("clear", "PIN block in clear:", hex(clear)),
      made("p", whyNoPin(clear, pan), { class: "note", "data-why": "pin" }),
    ];
  });
}

/** What the MAC of a frame would be whose number no transaction has: nothing of it is right. */
function macOfNone(key, frame, { kind, ksn, keyKind }) {
  const words = unlessFault(() => {
    checkMac(key, frame, kind, ksn);
    return `would be right ${RIGHT_UNDER[keyKind](ksn)}`;
  }, () => "would be another");
  return made("p", `MAC: ${words}.`, { class: "note", "data-check": "mac" });
}

/**
 * The checks of a frame under a transaction key, or that there is none: `keyKind` is the kind of the key
 * from which it follows; `isOfNone` says that no transaction has this number.
 */
export function checksOf(frame, key, { kind, ksn, keyKind, isOfNone }) {
  if (kind === "refusal") return [];
  if (!key) return [made("p", "No key is given: the MAC is not checked.", { class: "note" })];
  if (isOfNone) return [macOfNone(key, frame, { kind, ksn, keyKind })];
  const checks = macChecks(key, frame, { kind, ksn, keyKind });
  return kind === "request" ? [...checks, ...pinChecks(key, frame)] : checks;
}
