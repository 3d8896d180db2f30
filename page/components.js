// The panel "Ciphers and components", its key of components: all of them, by exclusive or.
import * as calls from "./calls.js";
import { Fault } from "./faults.js";
import { attempt, element, follow, read, renew, show } from "./fields.js";
import { hex, tdesKey } from "./hexadecimal.js";
import { isOdd, weakness, withOddParity } from "./parity.js";

const NAMES = ["component-1", "component-2", "component-3"];

/** The bytes of a key that have an even number of one bits, counted from 1, in words. */
function parityWords(key) {
  const even = [...key.keys()].filter((at) => !isOdd(key[at])).map((at) => at + 1);
  if (even.length === 0) return "odd in each byte";
  if (even.length === key.length) return "odd in no byte";
  return `not odd in byte${even.length === 1 ? "" : "s"} ${even.join(", ")}`;
}

function showKey(name, key) {
  show(`${name}-kcv`, hex(calls.checkValue(key)));
  show(`${name}-parity`, parityWords(key));
}

function combined(components) {
  const [first, ...others] = components;
  if (others.some((it) => it.length !== first.length)) {
    throw new Fault(0, "all components have the same length");
  }
  return others.reduce((key, it) => key.map((byte, at) => byte ^ it[at]), first);
}

const componentIfAny = (text) => (text.trim() === "" ? null : tdesKey(text));

function renewed() {
  renew(element("cipher-components"));
  element("components-note").textContent = "";
  const given = NAMES.map((name, at) => read(name, at < 2 ? tdesKey : componentIfAny));
  for (const [at, key] of given.entries()) if (key) showKey(NAMES[at], key);
  if (given.includes(undefined)) return;
  attempt(() => wrongLength(given), () => {
    const key = combined(given.filter((it) => it !== null));
    show("components-key", hex(key));
    showKey("components", key);
    show("components-cmac", hex(calls.cmacCheckValue(key)));
    show("components-odd", hex(withOddParity(key)));
    element("components-note").textContent = weakness(key);
  });
}

/** The first component that has not the length of the first one. */
const wrongLength = (given) =>
  NAMES[given.findIndex((it) => it !== null && it.length !== given[0].length)];

export function startComponents() {
  follow(element("cipher-components"), renewed);
}
