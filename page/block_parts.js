// The parts of a key block's text, and where a fault points to (docs/FORMATS.md, "Key block").
import { WORDS } from "./block_words.js";
import { STATUS } from "./call_table.js";

const VERSIONS = {
  A: "version A: variant binding, TDES", B: "version B: derivation binding, TDES",
  C: "version C: variant binding, TDES", D: "version D: derivation binding, AES",
  E: "version E: derivation binding, AES in counter mode (ISO 20038)",
};
// The version that is opened here.
const OPENED = "B";
const HEADER = [
  ["version", 0, 1, (text) => VERSIONS[text] ?? "no version of the standard"],
  ["length", 1, 4, (text) => `the block says that it has ${text} characters`],
  ["usage", 5, 2, WORDS.usage],
  ["algorithm", 7, 1, WORDS.algorithm],
  ["mode", 8, 1, WORDS.mode],
  ["key-version", 9, 2, WORDS["key-version"]],
  ["exportability", 11, 1, WORDS.exportability],
  ["count", 12, 2, WORDS.count],
  ["reserved", 14, 2, () => "reserved: any characters may stand here"],
];
const LEAST_REST = 64;
const MAC = 16;

/** The words of a version that the standards have, and that is not opened here; or nothing. */
export const versionNotOpened = (text) => (text[0] === OPENED ? undefined : VERSIONS[text[0]]);

/** What is wrong with the length of a block's text: a sentence's words. */
function lengthWords(text) {
  const count = `the text has ${text.length} character${text.length === 1 ? "" : "s"}`;
  const digits = text.slice(1, 5);
  if (text.length < 5) return `${count}, and a key block has 80 at least`;
  if (!/^\d{4}$/.test(digits)) return `characters 1 to 4 are ${digits}, and no decimal length`;
  const missing = Number(digits) - text.length;
  if (missing > 0) return `${count}, and characters 1 to 4 say ${digits}: ${missing} missing`;
  if (missing < 0) return `${count}, and characters 1 to 4 say ${digits}: ${-missing} too many`;
  if (text.length % 8) return `${count}, which is no multiple of 8`;
  return `${count}, and a key block has 80 to 512`;
}

/** Why a block is not unwrapped, in words; `fault` is that of the call. */
export function whyNotOpened(text, fault) {
  if (text === "") return "A key block is wanted, and here is nothing";
  const words = fault.number === STATUS.BLOCK_LENGTH ? lengthWords(text)
    : fault.number === STATUS.BLOCK_VERSION ? versionWords(text) : fault.message;
  return `${words.charAt(0).toUpperCase()}${words.slice(1)}`;
}

/** What is wrong with the version of a block that is none of the standards. */
function versionWords(text) {
  const capital = text[0].toUpperCase();
  if (capital !== text[0] && VERSIONS[capital]) {
    return `character 0 is ${text[0]}: a key block has capitals, and ${capital} is a version`;
  }
  return `character 0 is ${text[0]}, and no version of the standards: these are A to E`;
}

/** So many hexadecimal digits as a number; 0 where others stand there. */
const hexIn = (digits, count) =>
  (digits.length === count && /^[0-9A-Fa-f]+$/.test(digits) ? parseInt(digits, 16) : 0);

/**
 * The length of the optional block here, or 0. Where two digits do not say it, they are 00, and
 * behind them stand how many bytes do, and these bytes; no block of the opened version has that.
 */
function optionalLength(text, at) {
  const length = hexIn(text.slice(at + 2, at + 4), 2);
  if (length || !versionNotOpened(text)) return length;
  const digits = 2 * hexIn(text.slice(at + 4, at + 6), 2);
  return hexIn(text.slice(at + 6, at + 6 + digits), digits);
}

/** The optional blocks as far as they are right, and where they end or the wrong one begins. */
function optionalParts(text) {
  const count = /^\d\d$/.test(text.slice(12, 14)) ? Number(text.slice(12, 14)) : 0;
  const parts = [];
  let at = 16;
  for (let number = 1; number <= count; number += 1) {
    const length = optionalLength(text, at);
    if (length < 4 || at + length > text.length) return { parts, at, isWrong: true };
    const meaning = WORDS.optional(text.slice(at, at + 2));
    parts.push({ name: `optional-${number}`, at, length, meaning });
    at += length;
  }
  const rest = text.length - at;
  const isWrong = !versionNotOpened(text) && (rest < LEAST_REST || rest % 16 !== 0);
  return { parts, at, isWrong };
}

/** The parts that a text has: name, first character, length, meaning. */
export function partsOf(text) {
  const parts = [];
  for (const [name, at, length, words] of HEADER) {
    const part = text.slice(at, at + length);
    if (part.length === length) parts.push({ name, at, length, meaning: words(part) });
  }
  const optional = optionalParts(text);
  parts.push(...optional.parts);
  const rest = text.length - optional.at;
  if (rest <= 0) return parts;
  if (versionNotOpened(text) && !optional.isWrong) {
    return [...parts, { name: "rest", at: optional.at, length: rest, meaning: "payload and MAC" }];
  }
  const isWhole = !optional.isWrong;
  const length = isWhole ? rest - MAC : rest;
  const meaning = isWhole ? `the enciphered payload, ${length / 2} bytes` : "what follows the header";
  parts.push({ name: "ciphertext", at: optional.at, length, meaning });
  if (isWhole) parts.push({ name: "mac", at: text.length - MAC, length: MAC, meaning: "the MAC" });
  return parts;
}

/** The first and the last character that a fault of unwrapping points to. */
export function placeOfFault(text, number) {
  const last = Math.max(text.length - 1, 0);
  const optional = optionalParts(text);
  switch (number) {
    case STATUS.BLOCK_LENGTH:
      return text.length < 5 ? [0, last] : [1, 4];
    case STATUS.BLOCK_VERSION:
      return [0, 0];
    case STATUS.BLOCK_HEADER_FIELD: {
      const at = text.slice(5, 12).search(/[^ -~]/);
      return at < 0 ? [12, 13] : [5 + at, 5 + at];
    }
    case STATUS.BLOCK_HEX: {
      const at = optional.at + text.slice(optional.at).search(/[^0-9A-Fa-f]/);
      return [at, at];
    }
    case STATUS.BLOCK_OPTIONAL_BLOCK:
      return [Math.min(optional.at, last), last];
    case STATUS.BLOCK_MAC:
      return [text.length - MAC, last];
    case STATUS.BLOCK_PAYLOAD:
      return [optional.at, last - MAC];
    default:
      return [0, last];
  }
}
