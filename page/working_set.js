// The working set at the top of the page: a key, a key serial number, a PAN and a PIN, and what
// follows from them. hooks.js brings it to the fields of the panels.
import * as calls from "./calls.js";
import { withCounter } from "./counters.js";
import { Fault } from "./faults.js";
import { attempt, element, read, setFault } from "./fields.js";
import { digitsOf, doubleKey, hex, serialNumber } from "./hexadecimal.js";
import { weakness } from "./parity.js";
import { pinFieldOf } from "./pin.js";

// Of each kind its name in the set, its words, and which keys do not follow from it.
const OF_KIND = {
  bdk: { name: "bdk", words: "a base derivation key" },
  initial: { name: "initial-key", words: "an initial key", above: "a base derivation key" },
  transaction: {
    name: "transaction-key", words: "a transaction key",
    above: "a base derivation key or an initial key",
  },
};
/** The kinds of keys that the set may have. */
export const KINDS = Object.keys(OF_KIND);

export const kindOfSet = () => element("set-kind").value;

// The number beside which the key was given, as soon as there is one.
let boundTo;

/** The key of the set is given now: a transaction key belongs to the number that stands beside it. */
export const bindKey = () => { boundTo = undefined; };

/** What is to be noted of the key of the set; nothing but where it is that of one number. */
function noteOfKey(ksn) {
  if (!(ksn instanceof Uint8Array)) return "";
  boundTo ??= hex(ksn);
  if (kindOfSet() !== "transaction" || boundTo === hex(ksn)) return "";
  return `A transaction key belongs to one number. This one stays as it is: it was given beside ${boundTo}.`;
}

/** The name in the set of a key of a kind. */
export const nameOfKind = (kind) => OF_KIND[kind].name;

/** The field of the set for a name; undefined where the name's value only follows from the set. */
export function sourceOf(name) {
  if (name === nameOfKind(kindOfSet())) return "set-key";
  return { ksn: "set-ksn", pan: "set-pan", pin: "set-pin" }[name];
}

/** What a job gives, or its Fault. */
function outcome(job) {
  try {
    return job();
  } catch (fault) {
    if (fault instanceof Fault) return fault;
    throw fault;
  }
}

/** What is known; throws the Fault that stands in its place. */
function known(it) {
  if (it instanceof Fault) throw it;
  return it;
}

/** The keys of the set by their names: bytes, or a Fault that says why it has none of that name. */
function keysOfSet(kind, key, ksn) {
  const { words, above } = OF_KIND[kind];
  const none = new Fault(0, `the working set has ${words}, from which this does not follow. What is`
    + ` wanted here is ${above} of its own`);
  const initialOfBase = () => calls.initialKey(known(key), withCounter(known(ksn), 0));
  const initial = { bdk: outcome(initialOfBase), initial: key, transaction: none }[kind];
  const ofInitial = () => {
    calls.checkUsable(known(ksn));
    return calls.deriveFromInitial(known(initial), ksn);
  };
  const transaction = kind === "transaction" ? key : outcome(ofInitial);
  const variant = (call) => outcome(() => call(known(transaction)));
  return {
    bdk: kind === "bdk" ? key : none, "initial-key": initial, "transaction-key": transaction,
    "pin-key": variant(calls.pinKey), "request-key": variant(calls.requestKey),
    "response-key": variant(calls.responseKey), "request-data-key": variant(calls.requestDataKey),
    "response-data-key": variant(calls.responseDataKey),
  };
}

/** Shows the faults of PAN and PIN beside them, as the call for a PIN block judges them. */
function judgeCard() {
  const pin = read("set-pin", digitsOf);
  const pan = read("set-pan", digitsOf);
  if (!pin || !pan) return;
  attempt(pinFieldOf("set-pin", "set-pan", "set-pin"), () => calls.pinBlock(pin, pan));
}

/** Of each name what the set has: a text, or in `lacks` why there is none. */
export function valuesOfSet() {
  for (const id of ["set-key", "set-ksn", "set-pan", "set-pin"]) setFault(id, "");
  const faulty = (what) => new Fault(0, `the ${what} of the working set has a fault`);
  const ksn = read("set-ksn", serialNumber) ?? faulty("key serial number");
  const key = read("set-key", (text, note) => {
    note(noteOfKey(ksn));
    const bytes = doubleKey(text);
    if (weakness(bytes)) note(`${weakness(bytes)} ${noteOfKey(ksn)}`.trim());
    return bytes;
  }) ?? faulty("key");
  judgeCard();
  const values = {};
  for (const [name, it] of Object.entries(keysOfSet(kindOfSet(), key, ksn))) {
    values[name] = it instanceof Fault ? { text: "", lacks: it.message } : { text: hex(it) };
  }
  // A field of the set is shown as it is typed, with its faults.
  for (const name of ["ksn", "pan", "pin", nameOfKind(kindOfSet())]) {
    values[name] = { text: element(sourceOf(name)).value };
  }
  return values;
}
