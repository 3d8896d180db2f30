// The panel "Derive": the keys of a key serial number, and each step to them.
import * as calls from "./calls.js";
import { counterOf, path, withCounter } from "./counters.js";
import { attempt, element, follow, made, read, renew, show } from "./fields.js";
import { doubleKey, hex, hexCounter, serialNumber } from "./hexadecimal.js";
import { USES } from "./key_uses.js";
import { KINDS } from "./working_set.js";

/** The kind of key that a panel's switch asks for. Of the fields for keys, its one is shown. */
function kindIn(panel) {
  const kinds = KINDS.filter((it) => element(`${panel}-from-${it}`));
  const chosen = kinds.find((it) => element(`${panel}-from-${it}`).checked);
  for (const it of kinds) element(`${panel}-${it}`).closest(".field").hidden = it !== chosen;
  return chosen;
}

/** The initial key of a number, out of the key that a panel's switch asks for; else undefined. */
export function initialKeyOf(panel, ksn) {
  const kind = kindIn(panel);
  const key = read(`${panel}-${kind}`, doubleKey);
  if (!key || !ksn) return undefined;
  return kind === "bdk" ? calls.initialKey(key, withCounter(ksn, 0)) : key;
}

function showKey(kind, key) {
  show(`derive-${kind}-key`, hex(key));
  show(`derive-${kind}-kcv`, hex(calls.checkValue(key)));
  show(`derive-${kind}-cmac`, hex(calls.cmacCheckValue(key)));
}

function stepRow(initial, ksn, counter, parent) {
  const number = withCounter(ksn, counter);
  const row = made("tr", "", { "data-counter": hexCounter(counter) });
  const bit = counter === parent ? "none: the initial key" : `+ ${hexCounter(counter - parent)}`;
  row.append(made("td", bit, { class: "bit" }), made("td", hex(number), { class: "number" }));
  row.append(made("td", hex(calls.deriveFromInitial(initial, number)), { class: "key" }));
  return row;
}

function showSteps(initial, ksn) {
  const counters = path(counterOf(ksn));
  const rows = counters.map((it, at) => stepRow(initial, ksn, it, counters[Math.max(at - 1, 0)]));
  element("derive-steps").replaceChildren(...rows);
}

function renewed() {
  renew(element("panel-derive"));
  element("derive-note").textContent = "";
  element("derive-steps").replaceChildren();
  const isTransaction = kindIn("derive") === "transaction";
  element("derive-ksn").closest(".field").hidden = isTransaction;
  if (isTransaction) showGiven(read("derive-transaction", doubleKey));
  else showDerived();
}

/** Shows what follows from a transaction key that is given. */
function showGiven(key) {
  element("derive-note").textContent = "No step leads from a transaction key back to an initial key.";
  if (key) showTransaction(key);
}

function showDerived() {
  const ksn = read("derive-ksn", serialNumber);
  const initial = initialKeyOf("derive", ksn);
  if (!initial) return;
  const isInitial = counterOf(ksn) === 0;
  // Any number has an initial key: no transaction needs to have it.
  showKey("initial", initial);
  attempt(() => "derive-ksn", () => {
    if (!isInitial) calls.checkUsable(ksn);
    showSteps(initial, ksn);
    if (isInitial) showNote();
    else showTransaction(calls.deriveFromInitial(initial, ksn));
  });
}

function showNote() {
  element("derive-note").textContent =
    "The counter is zero: this number names the initial key, and no transaction has it.";
}

function showTransaction(key) {
  showKey("transaction", key);
  showKey("pin", calls.pinKey(key));
  showKey("request", calls.requestKey(key));
  showKey("response", calls.responseKey(key));
  for (const { name, keyOf } of USES.filter((it) => it.name.endsWith("-data"))) {
    showKey(name, keyOf(key));
  }
}

export function startDerive() {
  follow(element("panel-derive"), renewed);
}
