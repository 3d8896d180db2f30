// The MACs that a message may have under a key, and which of them a given one is.
import * as calls from "./calls.js";

const BLOCK = 8;
/** The bytes of a retail MAC's key. */
export const RETAIL_KEY = 16;
// Of a MAC often the first bytes alone are sent.
const FRONT = 4;

/** The message with these bytes behind it, and so many zeros that its blocks are whole. */
function padded(message, front) {
  const blocks = Math.ceil((message.length + front.length) / BLOCK);
  const bytes = new Uint8Array(BLOCK * blocks);
  bytes.set(message);
  bytes.set(front, message.length);
  return bytes;
}

/** The padding of ISO 9797-1 by method 1: zeros; and by method 2: 80, and then zeros. */
export const paddedByZeros = (message) => padded(message, []);
export const paddedByBit = (message) => padded(message, [0x80]);

/** Why there is no retail MAC, where zeros are the padding: a sentence, or nothing. */
export function whyNoRetail(key, message) {
  if (key.length !== RETAIL_KEY) return "No retail MAC: its key has 16 bytes, and this one has 24.";
  return message.length ? "" : "No retail MAC with zeros as padding: an empty message has no block.";
}

/** Each MAC of a message under a key: its name, its words, and its bytes. */
export function macsOf(key, message) {
  const macs = [{ name: "cmac", words: "CMAC", mac: calls.cmac(key, message) }];
  if (key.length !== RETAIL_KEY) return macs;
  const bit = calls.retailMac(key, paddedByBit(message));
  macs.unshift({ name: "retail-bit", words: "retail MAC with 80 00 ... as padding", mac: bit });
  if (message.length === 0) return macs;
  const retail = calls.retailMac(key, message);
  macs.unshift({ name: "retail", words: "retail MAC with zeros as padding", mac: retail });
  return macs;
}

/** How many bytes at the front are the same. */
function sameFront(one, other) {
  const at = one.findIndex((it, place) => it !== other[place]);
  return at < 0 ? one.length : at;
}

/**
 * Which of these MACs a given one is, of 4 bytes or 8: words such as "the CMAC"; nothing where it is
 * none of them. Whole ones are told before those of which the first 4 bytes are the same.
 */
export function nameOfMac(given, macs) {
  const whole = macs.find((it) => sameFront(given, it.mac) === it.mac.length);
  if (whole) return `the ${whole.words}`;
  const front = macs.find((it) => sameFront(given, it.mac) >= FRONT);
  if (!front) return undefined;
  return given.length === FRONT ? `the first 4 bytes of the ${front.words}`
    : `in its first 4 bytes alone the ${front.words}`;
}
