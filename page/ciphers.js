// The panel "Ciphers and components", its TDES by ECB and CBC (NIST SP 800-38A).
import * as calls from "./calls.js";
import { attempt, element, follow, read, renew, show } from "./fields.js";
import { block, hex, tdesKey, wholeBlocks } from "./hexadecimal.js";

const BLOCK = 8;

/** Each block of the bytes by itself. */
function byEcb(cipher, key, bytes) {
  const made = new Uint8Array(bytes.length);
  for (let at = 0; at < bytes.length; at += BLOCK) {
    made.set(cipher(key, bytes.slice(at, at + BLOCK)), at);
  }
  return made;
}

function transformed(isChain, isDecipher, { key, iv, bytes }) {
  if (!isChain) return byEcb(isDecipher ? calls.decipher : calls.encipher, key, bytes);
  return isDecipher ? calls.decipherChain(key, iv, bytes) : calls.encipherChain(key, iv, bytes);
}

function renewed() {
  renew(element("cipher-tdes"));
  const isChain = element("tdes-mode").value === "cbc";
  element("tdes-iv").closest(".field").hidden = !isChain;
  const key = read("tdes-key", tdesKey);
  const iv = isChain ? read("tdes-iv", block) : null;
  const bytes = read("tdes-data", wholeBlocks);
  if (!key || iv === undefined || !bytes) return;
  attempt(() => "tdes-data", () => {
    const isDecipher = element("tdes-way").value === "decipher";
    show("tdes-result", hex(transformed(isChain, isDecipher, { key, iv, bytes })));
  });
}

export function startCiphers() {
  follow(element("cipher-tdes"), renewed);
}
