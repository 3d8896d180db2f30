// The panel "MAC and check values".
import * as calls from "./calls.js";
import { attempt, element, follow, read, renew, show } from "./fields.js";
import { bytesOf, hex, macOrFront, tdesKey, utf8 } from "./hexadecimal.js";
import { shownBlocks } from "./mac_blocks.js";
import { macsOf, nameOfMac, whyNoRetail } from "./mac_kinds.js";

const macIfAny = (text) => (text.trim() === "" ? null : macOrFront(text));

function renewed() {
  renew(element("panel-mac"));
  element("mac-note").textContent = "";
  element("mac-compared").textContent = "";
  element("mac-blocks").replaceChildren();
  const key = read("mac-key", tdesKey);
  const message = read("mac-message", element("mac-as-text").checked ? utf8 : bytesOf);
  const other = read("mac-compare", macIfAny);
  if (!key) return;
  show("mac-kcv", hex(calls.checkValue(key)));
  show("mac-key-cmac", hex(calls.cmacCheckValue(key)));
  if (!message) return;
  attempt(() => "mac-message", () => showMacs(key, message, other));
}

function showMacs(key, message, other) {
  const macs = macsOf(key, message);
  for (const { name, mac } of macs) show(`mac-${name}`, hex(mac));
  const size = `The message has ${message.length} byte${message.length === 1 ? "" : "s"}.`;
  element("mac-note").textContent = `${size} ${whyNoRetail(key, message)}`;
  element("mac-blocks").append(...shownBlocks(key, message));
  if (other) showCompared(other, macs);
}

function showCompared(other, macs) {
  const name = nameOfMac(other, macs);
  const words = name ? `It is ${name}.`
    : "It is none of these MACs: the key, the message or what of it goes into the MAC is another.";
  element("mac-compared").textContent = words;
  element("mac-compared").dataset.result = name ? "good" : "bad";
}

export function startMacs() {
  follow(element("panel-mac"), renewed);
}
