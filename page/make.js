// The panel "Frames and files", its making of frames.
import * as calls from "./calls.js";
import { attempt, element, follow, read, renew, show } from "./fields.js";
import { digitsOf, doubleKey, hex, serialNumber, utf8, whole } from "./hexadecimal.js";
import { pinFieldOf } from "./pin.js";

const MOST_AMOUNT = 4294967295;
/** The fields that each kind of frame has beside its key serial number. */
const FIELDS = {
  request: ["key", "pan", "pin", "amount"], reply: ["key", "code"], refusal: ["reason"],
};
const READERS = {
  key: doubleKey, pan: digitsOf, pin: digitsOf, amount: whole(0, MOST_AMOUNT), code: utf8,
  reason: Number,
};

function makeFrame(kind, ksn, it) {
  if (kind === "request") return calls.paymentRequest(it.key, ksn, it.pan, it.pin, it.amount);
  return kind === "reply" ? calls.reply(it.key, ksn, it.code) : calls.refusal(ksn, it.reason);
}

function renewed() {
  renew(element("frame-make"));
  const kind = element("make-kind").value;
  for (const name of Object.keys(READERS)) {
    element(`make-${name}`).closest(".field").hidden = !FIELDS[kind].includes(name);
  }
  const ksn = read("make-ksn", serialNumber);
  const given = {};
  for (const name of FIELDS[kind]) given[name] = read(`make-${name}`, READERS[name]);
  if (!ksn || Object.values(given).includes(undefined)) return;
  attempt(pinFieldOf("make-pin", "make-pan", "make-kind"), () =>
    show("make-frame", hex(makeFrame(kind, ksn, given))));
}

export function startMake() {
  follow(element("frame-make"), renewed);
}
