// The fields of a PIN block of ISO 9564-1 format 0, nibble by nibble, and which of them are wrong.
// Whether a block holds a PIN is for the call of the module to say: what is shown here is why.
import { STATUS } from "./call_table.js";
import * as calls from "./calls.js";
import { Fault } from "./faults.js";
import { ascii, bytesOf, hex } from "./hexadecimal.js";

const NIBBLES = 16;
const LEAST_PIN = 4;
const MOST_PIN = 12;
const FILLER = 15;
// Nibbles are counted from 1. The account field has digits from the fifth on.
const FIRST_DIGIT = 3;
const FIRST_ACCOUNT = 5;
const MOST_DECIMAL = 9;

/** The account field: the 12 rightmost digits of the PAN without its check digit. */
export const accountField = (pan) => `0000${ascii(pan).slice(0, -1).slice(-12).padStart(12, "0")}`;

/** The PIN field of a block: with the account field of its PAN it is the block (exclusive or). */
export function pinField(clear, pan) {
  const account = bytesOf(accountField(pan));
  return hex(clear.map((it, at) => it ^ account[at]));
}

/** The digits of the PIN in a block in clear; nothing where it holds none under this PAN. */
export function pinIn(clear, pan) {
  try {
    return calls.pinOfBlock(clear, pan);
  } catch (fault) {
    if (fault instanceof Fault && fault.number === STATUS.NOT_A_PIN_BLOCK) return undefined;
    throw fault;
  }
}

const nibblesOf = (text) => Array.from(text, (it) => parseInt(it, 16));

const digit = (value) => value.toString(16).toUpperCase();

function partOfControl(control) {
  const format = control < 5 ? `that is of format ${control}` : "no format of ISO 9564-1 has that";
  return {
    name: "control", one: "the control", mark: "C", from: 1, to: 1, wrong: control ? [1] : [],
    words: control ? digit(control) : "0: format 0", wanted: `${format}, and of format 0 it is 0`,
  };
}

function partOfLength(length) {
  const isWrong = length < LEAST_PIN || length > MOST_PIN;
  return {
    name: "length", one: "the length", mark: "N", from: 2, to: 2, wrong: isWrong ? [2] : [],
    words: isWrong ? digit(length) : `${digit(length)}: a PIN of ${length} digits`,
    wanted: "a PIN has 4 to 12 digits",
  };
}

/** A part of several nibbles, each of which has to be as `isRight` says. */
function partOfMany(values, { name, one, mark, from, to, isRight, wanted }) {
  const wrong = [];
  for (let place = from; place <= to; place += 1) {
    if (!isRight(values[place - 1])) wrong.push(place);
  }
  const text = values.slice(from - 1, to).map(digit).join("");
  return { name, one, mark, from, to, wrong, wanted, words: text };
}

/**
 * The parts of a PIN field: each with its first and last nibble, what is there in words, and which
 * nibbles are wrong. Where the length is wrong, nothing tells digits from fillers.
 */
export function partsOfField(field) {
  const values = nibblesOf(field);
  const [control, length] = values;
  const front = [partOfControl(control), partOfLength(length)];
  if (front[1].wrong.length) {
    const words = "without a length nothing tells them apart";
    return [...front, {
      name: "digits and fillers", mark: "?", from: FIRST_DIGIT, to: NIBBLES, wrong: [], words,
    }];
  }
  const last = FIRST_DIGIT + length - 1;
  return [
    ...front,
    partOfMany(values, {
      name: "digits", one: "a digit", mark: "P", from: FIRST_DIGIT, to: last,
      isRight: (it) => it <= MOST_DECIMAL, wanted: "a digit of a PIN is decimal",
    }),
    partOfMany(values, {
      name: "fillers", one: "a filler", mark: "F", from: last + 1, to: NIBBLES,
      isRight: (it) => it === FILLER, wanted: "each filler is F",
    }),
  ];
}

/**
 * The last digits of the account field of a PAN under which the fillers of a block are right: they
 * are F there. Nothing where no PAN has such digits.
 */
function accountByFillers(clear, fillers) {
  const values = nibblesOf(hex(clear)).slice(fillers.from - 1).map((it) => it ^ FILLER);
  return values.every((it) => it <= MOST_DECIMAL) ? values.join("") : undefined;
}

/** What is likely where the PIN field of a block in clear is wrong: a sentence. */
export function likelyCause(clear, parts) {
  const first = Math.min(...parts.flatMap((it) => it.wrong));
  if (first < FIRST_ACCOUNT) {
    return "The PAN has no part in this nibble: another key is likely, or another block.";
  }
  const digits = accountByFillers(clear, parts[3]);
  if (digits === undefined) {
    return "No PAN makes these fillers right: another key is likely, or another block.";
  }
  return "Control, length and the first two digits are right, and the account field covers the rest:"
    + " another PAN is likely, or another key."
    + ` The fillers fit a PAN with ${digits} before its check digit.`;
}

/** The first wrong nibble of parts of a PIN field, in words; nothing where none is wrong. */
export function firstWrong(field, parts) {
  const part = parts.find((it) => it.wrong.length);
  if (!part) return undefined;
  const [place] = part.wrong;
  return `nibble ${place} is ${part.one}: ${field[place - 1]}, and ${part.wanted}`;
}
