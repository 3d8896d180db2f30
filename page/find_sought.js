// What is sought: a frame, a MAC, a PIN block or an enciphered block, as the panel's fields have it.
// `wayOf(key)` tells how a key makes it, in words, and `ways` has what is tried under each key.
import * as calls from "./calls.js";
import { withCounter } from "./counters.js";
import { bytesOfText } from "./dumps.js";
import { Fault } from "./faults.js";
import { paddedByBit } from "./mac_kinds.js";
import { element, read } from "./fields.js";
import { MAC, damageAt, textOfMac } from "./frame_whole.js";
import { serialIn } from "./frame_parts.js";
import { ascii, block, bytesOf, digitsOf, hex, macOrFront, utf8 } from "./hexadecimal.js";
import { pinIn } from "./pin_field.js";

const REFUSAL = 3;
// Twelve MACs of it are made for each number, between which the page does not answer.
const MOST_MESSAGE = 4096;
// The bytes that a PIN block of format 0 begins with, which no PAN changes: 04 to 0C.
const LEAST_FRONT = 4;
const MOST_FRONT = 12;
/** Any PIN, to have a PAN judged. */
const SOME_PIN = utf8("0000");

/** What is tried: the MACs that the command `find` tries, and one that is tried where it is asked for. */
const RETAIL = { way: "retail MAC", macOf: calls.retailMac };
const CMAC = { way: "CMAC", macOf: calls.cmac };
const RETAIL_BIT = {
  way: "retail MAC with 80 00 ... as padding",
  macOf: (key, text) => calls.retailMac(key, paddedByBit(text)),
};
const CIPHER = "TDES";

const isFront = (one, other) => one.every((it, at) => it === other[at]);

/** A frame that has a MAC. */
function frameWithMac(text) {
  const bytes = bytesOfText(text);
  const damage = damageAt(bytes, bytes.length);
  if (damage) throw new Fault(0, damage[0]);
  const length = calls.frameLength(bytes);
  if (length < bytes.length) {
    throw new Fault(0, `one frame is wanted, and ${bytes.length - length} bytes stand behind it`);
  }
  if (bytes[3] === REFUSAL) throw new Fault(0, "a refusal has no MAC");
  return bytes;
}

function message(text) {
  const bytes = element("find-as-text").checked ? utf8(text) : bytesOf(text);
  if (bytes.length && bytes.length <= MOST_MESSAGE) return bytes;
  const wanted = `a message of 1 to ${MOST_MESSAGE} bytes is wanted`;
  throw new Fault(0, `${wanted}, and here are ${bytes.length}`);
}

function pan(text) {
  const digits = digitsOf(text);
  calls.pinBlock(SOME_PIN, digits);
  return digits;
}

/** What is sought by the MAC that a frame has, and the terminal whose frame it is. */
function ofFrame(frame) {
  const mac = frame.slice(-MAC);
  const text = textOfMac(frame);
  return {
    terminal: withCounter(serialIn(frame), 0),
    ways: [RETAIL.way],
    wayOf: (key) => (isFront(mac, calls.retailMac(key, text)) ? RETAIL.way : undefined),
  };
}

/** What is sought by a MAC, or by its first bytes. */
function ofMac(mac, text) {
  const tried = element("find-bit").checked ? [RETAIL, CMAC, RETAIL_BIT] : [RETAIL, CMAC];
  return {
    ways: tried.map((it) => it.way),
    wayOf: (key) => tried.find(({ macOf }) => isFront(mac, macOf(key, text)))?.way,
    bits: 8 * mac.length,
  };
}

function ofPinBlock(hidden, digits) {
  const wayOf = (key) => {
    const clear = calls.decipher(key, hidden);
    // Most blocks are told by their first byte, without the call that judges the whole.
    if (clear[0] < LEAST_FRONT || clear[0] > MOST_FRONT) return undefined;
    return pinIn(clear, digits) ? CIPHER : undefined;
  };
  return { ways: [CIPHER], wayOf, pinBy: (key) => ascii(pinIn(calls.decipher(key, hidden), digits)) };
}

const ofCiphertext = (hidden, clear) => ({
  ways: [CIPHER],
  wayOf: (key) => (isFront(hidden, calls.encipher(key, clear)) ? CIPHER : undefined),
});

/** Of each kind its fields with their readers, and what is sought by what they have. */
export const KINDS = {
  frame: { readers: { frame: frameWithMac }, sought: ofFrame },
  mac: { readers: { mac: macOrFront, message }, sought: ofMac },
  pin: { readers: { block, pan }, sought: ofPinBlock },
  cipher: { readers: { hidden: block, clear: block }, sought: ofCiphertext },
};

/** What is sought by the fields of a kind; `name` tells it apart. Undefined where one is wrong. */
export function readSought(kind) {
  const { readers, sought } = KINDS[kind];
  const given = Object.entries(readers).map(([name, reader]) => read(`find-${name}`, reader));
  if (given.includes(undefined)) return undefined;
  const made = sought(...given);
  return { name: [kind, ...given.map(hex), ...made.ways].join(" "), ...made };
}
