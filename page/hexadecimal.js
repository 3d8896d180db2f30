// Bytes and their texts, and what a field's text has to be. A reader throws a Fault in words.
import { Fault } from "./faults.js";

// The two digits of each byte.
const PAIRS = Array.from({ length: 256 }, (_, it) => it.toString(16).toUpperCase().padStart(2, "0"));

/** The bytes in hexadecimal, in upper case. */
export const hex = (bytes) => Array.from(bytes, (it) => PAIRS[it]).join("");

/** A counter as six hexadecimal digits. */
export const hexCounter = (counter) => counter.toString(16).toUpperCase().padStart(6, "0");

const GROUPED = new Intl.NumberFormat("en");
/** A count in decimal, its thousands apart by commas. */
export const counted = (number) => GROUPED.format(number);

export const ascii = (bytes) => String.fromCharCode(...bytes);
export const utf8 = (text) => new TextEncoder().encode(text);

// What stands around and between digits: spaces and line ends, what is not seen (zero-width
// characters, soft hyphens, byte order marks), and what other programs put between bytes.
const BLANK = String.raw`\s\p{Default_Ignorable_Code_Point}`;
const HYPHEN = String.raw`\-\u2010\u2011`;
const BETWEEN = `${BLANK}${HYPHEN}:,`;

/** A text without its characters that are not seen. */
export const withoutUnseen = (text) => text.replace(/\p{Default_Ignorable_Code_Point}/gu, "");

/** What a field wants: the name of a digit, which they are, and what may stand between them. */
const kindOf = (name, digits, between) => ({
  name, between: new RegExp(`[${between}]`, "gu"), wrong: new RegExp(`[^${digits}${between}]`, "u"),
});
const HEXADECIMAL = kindOf("hexadecimal digit", "0-9A-Fa-f", BETWEEN);
const DECIMAL = kindOf("decimal digit", "0-9", BLANK + HYPHEN);
const NUMBER = kindOf("decimal digit", "0-9", BLANK);
// `0x` before a number or a byte, and not within one.
const PREFIX = new RegExp(`(?<![^${BETWEEN}])0[xX]`, "gu");
const VISIBLE = /[\p{L}\p{N}\p{P}\p{S}]/u;

/** A character by its code, and by itself where it is seen. */
function named(character) {
  const code = character.codePointAt(0).toString(16).toUpperCase().padStart(4, "0");
  return VISIBLE.test(character) ? `“${character}” (U+${code})` : `U+${code}`;
}

/** The digits of a text; a fault has the first character that is none, and its place from 1. */
function digitsIn(text, kind) {
  const wrong = text.match(kind.wrong);
  if (!wrong) return text.replace(kind.between, "");
  const place = [...text.slice(0, wrong.index)].length + 1;
  throw new Fault(0, `no ${kind.name}: ${named(wrong[0])} at place ${place}`);
}

/** The hexadecimal digits of a text; two blanks in the place of `0x` leave all others in theirs. */
const hexDigitsIn = (text) => digitsIn(text.replace(PREFIX, "  "), HEXADECIMAL);

/** The bytes of pairs of hexadecimal digits. */
export function bytesOf(text) {
  const digits = hexDigitsIn(text);
  if (digits.length % 2) throw new Fault(0, `an odd number of digits, ${digits.length}: no whole bytes`);
  return Uint8Array.from(digits.match(/../g) ?? [], (it) => parseInt(it, 16));
}

/** A reader of bytes of one of these lengths, which a fault calls by a name. */
const sized = (name, ...lengths) => (text) => {
  const digits = hexDigitsIn(text);
  if (lengths.includes(digits.length / 2)) return bytesOf(digits);
  const wanted = lengths.map((it) => 2 * it).join(" or ");
  throw new Fault(0, `${name} has ${wanted} digits, and here are ${digits.length}`);
};

export const doubleKey = sized("this key", 16);
export const tdesKey = sized("a TDES key", 16, 24);
export const block = sized("a block", 8);
export const fullNumber = sized("a key serial number", 10);

/**
 * The ten bytes of a key serial number. Terminals print eight of them where the first two are FF:
 * they are filled, and `note` is told.
 */
export function serialNumber(text, note = () => {}) {
  const digits = hexDigitsIn(text);
  if (digits.length === 20) return bytesOf(digits);
  if (digits.length !== 16) {
    const words = "a key serial number has 20 digits, or 16 without an FFFF at the front";
    throw new Fault(0, `${words}, and here are ${digits.length}`);
  }
  note("16 digits: filled with FFFF at the front");
  return bytesOf(`FFFF${digits}`);
}

/** The digits of a PIN or a PAN, as ASCII; how many there may be a call judges. */
export const digitsOf = (text) => utf8(digitsIn(text, DECIMAL));

// Digits by threes, as `counted` writes them.
const BY_THREES = /^\s*\d{1,3}(?:,\d{3})+\s*$/;

/** A reader of whole numbers within these bounds. */
export const whole = (least, most) => (text) => {
  const digits = digitsIn(BY_THREES.test(text) ? text.replaceAll(",", "") : text, NUMBER);
  const number = Number(digits);
  if (digits && number >= least && number <= most) return number;
  throw new Fault(0, `a whole number from ${counted(least)} to ${counted(most)} is wanted`);
};

/** A reader of so many characters, for a field of a key block's header. */
export const characters = (count) => (text) => {
  const bytes = utf8(text);
  if (bytes.length === count) return bytes;
  throw new Fault(0, count === 1 ? "one character is wanted" : `${count} characters are wanted`);
};

/** A MAC, of which the first half may stand alone. */
export const macOrFront = sized("a MAC", 4, 8);

/** The bytes of blocks, of one at least. */
export function wholeBlocks(text) {
  const bytes = bytesOf(text);
  if (bytes.length && bytes.length % 8 === 0) return bytes;
  throw new Fault(0, `whole blocks of 8 bytes are wanted, and here are ${bytes.length} bytes`);
}

/** The arrays, one behind the other. */
export function joined(...parts) {
  return Uint8Array.from(parts.flatMap((it) => Array.from(it)));
}
