// The panel "PIN block": encode, decode and translate (ISO 9564-1 format 0).
import { STATUS } from "./call_table.js";
import * as calls from "./calls.js";
import { Fault } from "./faults.js";
import { attempt, element, follow, read, renew, show } from "./fields.js";
import { ascii, block, digitsOf, hex, tdesKey } from "./hexadecimal.js";
import { accountField, pinField, pinIn } from "./pin_field.js";
import { RESTS_ON_PAN, shownField, whyNoPin } from "./pin_shown.js";

/** Which of these fields a fault belongs to. */
export function pinFieldOf(pin, pan, other) {
  const fields = {
    [STATUS.PIN_LENGTH]: pin, [STATUS.PIN_DIGIT]: pin,
    [STATUS.PAN_LENGTH]: pan, [STATUS.PAN_DIGIT]: pan,
  };
  return (fault) => fields[fault.number] ?? other;
}

function encode() {
  renew(element("pin-encode"));
  const pin = read("pin-pin", digitsOf);
  const pan = read("pin-pan", digitsOf);
  const key = read("pin-key", tdesKey);
  if (!pin || !pan) return;
  attempt(pinFieldOf("pin-pin", "pin-pan", "pin-pin"), () => {
    const clear = calls.pinBlock(pin, pan);
    show("pin-account-field", accountField(pan));
    show("pin-pin-field", pinField(clear, pan));
    show("pin-block", hex(clear));
    if (key) show("pin-enciphered", hex(calls.encipher(key, clear)));
  });
}

/** The key of a block that may be in clear: null where the field is empty. */
const keyIfAny = (text) => (text.trim() === "" ? null : tdesKey(text));

function decode() {
  renew(element("pin-decode"));
  element("open-field").replaceChildren();
  element("open-why").textContent = "";
  element("open-rests").textContent = "";
  const given = read("open-block", block);
  const key = read("open-key", keyIfAny);
  const pan = read("open-pan", digitsOf);
  if (!given || key === undefined) return;
  const clear = key ? calls.decipher(key, given) : given;
  show("open-clear", hex(clear));
  if (!pan) return;
  attempt(pinFieldOf("open-block", "open-pan", "open-block"), () => {
    const pin = pinIn(clear, pan);
    element("open-field").append(...shownField(clear, pan));
    if (!pin) {
      element("open-why").textContent = whyNoPin(clear, pan);
      throw new Fault(STATUS.NOT_A_PIN_BLOCK);
    }
    show("open-pin", ascii(pin));
    element("open-rests").textContent = RESTS_ON_PAN;
  });
}

function translate() {
  renew(element("pin-translate"));
  const given = read("translate-block", block);
  const from = read("translate-from", tdesKey);
  const to = read("translate-to", tdesKey);
  if (!given || !from || !to) return;
  show("translate-result", hex(calls.encipher(to, calls.decipher(from, given))));
}

export function startPin() {
  follow(element("pin-encode"), encode);
  follow(element("pin-decode"), decode);
  follow(element("pin-translate"), translate);
}
