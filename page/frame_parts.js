// The parts of a frame, and the first byte that breaks a rule (docs/FORMATS.md, "Frames").
import { counterOf, isUsable, withCounter } from "./counters.js";
import { ascii, hex } from "./hexadecimal.js";

export const KINDS = {
  1: "request", 2: "reply", 3: "refusal", 4: "reversal", 5: "reversal-reply",
};
/** A kind in words. */
const nameOf = (kind) => (kind === "reversal-reply" ? "reversal's reply" : kind);
export const CODES = {
  "00": "approved", 14: "no such card", 30: "PIN block unreadable", 51: "over the card's limit",
  55: "wrong PIN",
};
export const REASONS = {
  1: "malformed", 2: "unknown key set", 3: "bad counter", 4: "bad MAC", 5: "used", 6: "log full",
};
/** What a reversal found, by the byte of its state. */
export const STATES = { 0: "none stands", 1: "undone" };
const LENGTH = [0, 1];
const FRONT = 15;
// Where a key serial number begins, where the one that it reverses does, and the state.
const NUMBER = 4;
const REVERSED = 14;
const STATE = 24;
// How many bytes the contents of each kind have, but of a request, where that is as its PAN is.
const SIZES = { reply: 22, refusal: 13, reversal: 30, "reversal-reply": 31 };

/** The bytes of a part as a number. */
const numberIn = (bytes) => bytes.reduce((sum, it) => sum * 256 + it, 0);

/** The key serial number of a frame. */
export const serialIn = (frame) => frame.slice(NUMBER, NUMBER + 10);

/** The parts of a right frame: name, first byte, length, what it means. */
export function partsOfFrame(frame) {
  const kind = KINDS[frame[3]];
  const contents = numberIn(frame.slice(0, 2));
  const parts = [
    ["length", 0, 2, () => `${contents} bytes of contents`],
    ["kind", 2, 2, () => `version 1, kind ${frame[3]}: ${nameOf(kind)}`],
    ["ksn", NUMBER, 10, () => "key serial number"],
  ];
  if (kind === "request") parts.push(...requestParts(frame[14]));
  if (kind === "reply") {
    parts.push(["code", 14, 2, (it) => `code ${ascii(it)}: ${CODES[ascii(it)]}`]);
    parts.push(["mac", 16, 8, () => "retail MAC under the response key"]);
  }
  if (kind === "refusal") {
    parts.push(["reason", 14, 1, ([it]) => `reason ${it}: ${REASONS[it]}; a refusal has no MAC`]);
  }
  if (kind === "reversal") {
    parts.push(REVERSED_PART, ["mac", STATE, 8, () => "retail MAC under the request key"]);
  }
  if (kind === "reversal-reply") {
    parts.push(REVERSED_PART);
    parts.push(["state", STATE, 1, (it) => `state ${hex(it)}: ${STATES[it[0]]}`]);
    parts.push(["mac", STATE + 1, 8, () => "retail MAC under the response key"]);
  }
  return parts.map(([name, at, length, words]) => {
    const bytes = frame.slice(at, at + length);
    return { name, at, length, text: hex(bytes), meaning: words(bytes) };
  });
}

const REVERSED_PART = ["reversed", REVERSED, 10, () => "key serial number that is reversed"];

function requestParts(digits) {
  const at = FRONT + digits;
  return [
    ["count", 14, 1, () => `the PAN has ${digits} digits`],
    ["pan", FRONT, digits, (it) => `PAN ${ascii(it)}`],
    ["amount", at, 4, (it) => `amount ${numberIn(it)}, in the smallest unit of the currency`],
    ["block", at + 4, 8, () => "PIN block, enciphered under the PIN key"],
    ["mac", at + 12, 8, () => "retail MAC under the request key"],
  ];
}

/** What is wrong with the bytes of a frame: words, first and last byte; or nothing. */
export function damageOfFrame(frame) {
  const contents = frame.length - 2;
  if (contents < 2) return ["the contents have no version and kind", ...LENGTH];
  if (frame[2] !== 1) return [`the version is ${frame[2]}, and not 1`, 2, 2];
  const kind = KINDS[frame[3]];
  if (!kind) return [`the kind is ${frame[3]}, and not 1 to 5`, 3, 3];
  if (kind === "request") return damageOfRequest(frame, contents);
  const wanted = SIZES[kind];
  if (contents !== wanted) return [`the contents of a ${nameOf(kind)} have ${wanted} bytes`, ...LENGTH];
  if (kind === "reply" && !CODES[ascii(frame.slice(14, 16))]) {
    return ["a code is 00, 14, 30, 51 or 55", 14, 15];
  }
  if (kind === "refusal" && !REASONS[frame[14]]) return ["a reason is 1 to 6", 14, 14];
  const words = kind.startsWith("reversal") ? whyNotReversed(frame) : undefined;
  if (words) return [`the second number is not reversed: ${words}`, REVERSED, REVERSED + 9];
  if (kind === "reversal-reply" && !STATES[frame[STATE]]) {
    return ["a state is 00 or 01", STATE, STATE];
  }
  return undefined;
}

/** Why the first number of a reversal does not reverse the second one, or nothing. */
function whyNotReversed(frame) {
  const own = serialIn(frame);
  const other = frame.slice(REVERSED, REVERSED + 10);
  if (hex(withCounter(own, 0)) !== hex(withCounter(other, 0))) {
    return "its initial key serial number is another";
  }
  if (counterOf(own) === counterOf(other)) return "it is the first one";
  if (isUsable(counterOf(other))) return undefined;
  return "its counter is zero or has more than ten one bits";
}

function damageOfRequest(frame, contents) {
  if (contents < FRONT - 2) return ["the contents of a request have 45 to 52 bytes", ...LENGTH];
  const digits = frame[14];
  if (digits < 12 || digits > 19) return [`a PAN has 12 to 19 digits, and not ${digits}`, 14, 14];
  if (contents !== 33 + digits) {
    const words = `with a PAN of ${digits} digits the contents have ${33 + digits} bytes`;
    return [words, ...LENGTH];
  }
  const wrong = frame.slice(FRONT, FRONT + digits).findIndex((it) => it < 0x30 || it > 0x39);
  const at = FRONT + wrong;
  return wrong < 0 ? undefined : ["the PAN has a byte that is no digit", at, at];
}
