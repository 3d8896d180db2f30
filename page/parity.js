// The parity of keys for TDES, which is no part of them, and what is weak about a key.
import { hex } from "./hexadecimal.js";

const HALF = 8;
const SINGLE = "Two parts that follow each other are the same: this key is no better than single DES.";
const DOUBLE = "The first part and the last are the same: a key of 16 bytes does the same.";

/** Whether a byte has an odd number of one bits. */
export const isOdd = (byte) => {
  let parity = byte;
  for (const by of [4, 2, 1]) parity ^= parity >> by;
  return (parity & 1) === 1;
};

/** The key with its lowest bits set so that each byte has odd parity: for TDES the same key. */
export const withOddParity = (key) => key.map((it) => (isOdd(it) ? it : it ^ 1));

/** What is weak about a key: two of its parts of 8 bytes are the same, but for parity. */
export function weakness(key) {
  const parts = [];
  for (let at = 0; at < key.length; at += HALF) {
    parts.push(hex(withOddParity(key.slice(at, at + HALF))));
  }
  if (parts[0] === parts[1] || parts[1] === parts[2]) {
    return SINGLE;
  }
  return parts[0] === parts[2] ? DOUBLE : "";
}
