// The records of a journal, as version 1 has them: the first byte that breaks a rule, and the entries,
// which are payments and reversals (docs/FORMATS.md, "Version 1 of a journal"). A check answers with words,
// the first and the last byte, or with nothing. The first byte stands in the record at which
// `show journal` refuses the file.
import { SPENT, counterOf, isUsable, withCounter } from "./counters.js";
import { CODES, STATES } from "./frame_parts.js";
import { exact, firstRepeat, numbersAt } from "./numbers.js";

export const RECORD = 32;
const OPEN = 1;
const PAYMENT = 1;
const REVERSAL = 2;
const MOST_FOLLOWERS = 4095;
// Where the fields of a record begin.
const KIND = 1;
const FOLLOWERS = 2;
const NUMBER = 4;
// The amount of a payment, or the counter that is reversed; the code of a payment, or a state.
const FIGURE = 14;
const OUTCOME = 18;
const MAC = 19;
const ZEROS = 27;
// The codes and the states by their bytes, in words.
const CODE_TEXTS = Object.fromEntries(
  Object.entries(CODES).map(([code, words]) => [Number(code), `${code} ${words}`]));
// In a frame a state is 0 or 1, and here 128 more, which no code is.
const STATE_TEXTS = { 128: `00 ${STATES[0]}`, 129: `01 ${STATES[1]}` };
// Of each kind of record what it has, and which outcomes.
const KINDS = {
  [PAYMENT]: { name: "a payment", outcome: "code", texts: CODE_TEXTS, all: "0, 14, 30, 51 or 55" },
  [REVERSAL]: {
    name: "a reversal", outcome: "state", texts: STATE_TEXTS,
    all: `129, ${STATES[1]}, or 128, ${STATES[0]}`,
  },
};

const followersAt = (journal, at) => journal[at + FOLLOWERS] << 8 | journal[at + FOLLOWERS + 1];

export const isReversal = (journal, record) => journal[RECORD * record + KIND] === REVERSAL;

/** The amount of a payment, or the counter of the number that a reversal reverses. */
export const figureOf = (journal, record) =>
  new DataView(journal.buffer).getUint32(RECORD * record + FIGURE);

/** The numbers of the first entries, so many, and those that are reversed, by their reversals. */
export function numbersIn(journal, count) {
  const found = numbersAt(journal, { count, length: RECORD, place: NUMBER });
  const reversed = new Map();
  for (const [record, owner] of found.owners.entries()) {
    if (isReversal(journal, record)) reversed.set(record, exact(owner, figureOf(journal, record)));
  }
  return { ...found, reversed };
}

/** The initial key serial number of an entry. */
export const iksnOf = (journal, record) => withCounter(numberAt(journal, record), 0);
const numberAt = (journal, record) =>
  journal.slice(RECORD * record + NUMBER, RECORD * record + FIGURE);

/** Whether an entry is a payment that was approved: no state is kept as a code is. */
export const isApproved = (journal, record) => journal[RECORD * record + OUTCOME] === 0;

/** The fields of an entry: a payment has an amount, and a reversal the number that it reverses. */
function fieldsOf(journal, record) {
  const at = RECORD * record;
  const number = numberAt(journal, record);
  const figure = figureOf(journal, record);
  const own = isReversal(journal, record)
    ? { reversed: withCounter(number, figure) } : { amount: figure };
  const outcome = KINDS[journal[at + KIND]].texts[journal[at + OUTCOME]];
  return { number, ...own, outcome, mac: journal.slice(at + MAC, at + ZEROS) };
}

/** Of a right journal the first entries, at most so many, and how many entries and groups. */
export function entriesIn(journal, most) {
  const entries = [];
  let groups = 0;
  let first = 0;
  while (journal[RECORD * first] === OPEN) {
    const last = first + followersAt(journal, RECORD * first);
    for (let record = first; record <= last && record < most; record += 1) {
      entries.push({ record, first, last, ...fieldsOf(journal, record) });
    }
    first = last + 1;
    groups += 1;
  }
  return { entries, groups, count: first };
}

/** Where the whole records end. */
const wholeOf = (journal) => journal.length - journal.length % RECORD;

/**
 * What is wrong with records, at the first wrong one: also one that is missing or cut off, or that there
 * is none. The words say what stands at the end of a record.
 */
export function damageOfRecords(journal, ending, isNone) {
  let end = 0;
  let damage;
  while (!damage && end < wholeOf(journal) && journal[end] === OPEN) {
    damage = damageOfGroup(journal, end, ending);
    if (!damage) end += RECORD * (followersAt(journal, end) + 1);
  }
  const count = damage ? Math.floor(damage[1] / RECORD) : end / RECORD;
  return repeatIn(journal, count) ?? damage ?? damageBehind(journal, end)
    ?? damageOfSize(journal, isNone);
}

/** That one of the first entries, so many, has a number that was used before it. */
function repeatIn(journal, count) {
  const { numbers, reversed } = numbersIn(journal, count);
  const [record, earlier] = firstRepeat(numbers, reversed) ?? [];
  if (record === undefined) return undefined;
  const did = numbers[earlier] === numbers[record] ? "has" : "reverses";
  const words = `has a number that record ${earlier} ${did}: no host comes up over it`;
  const at = RECORD * record;
  return [`record ${record} ${words}`, at + NUMBER, at + FIGURE - 1];
}

/** That there is no record, or that the last one is cut off. */
function damageOfSize(journal, isNone) {
  const whole = wholeOf(journal);
  if (!isNone && journal.length === whole) return undefined;
  return [`a journal has whole records of 32 bytes, and here are ${journal.length} bytes`,
    whole, Math.max(journal.length - 1, whole)];
}

/** What is wrong with the group whose first record stands here. */
function damageOfGroup(journal, head, ending) {
  const followers = followersAt(journal, head);
  const damage = damageOfRecord(journal, head, ending, () => wrongCount(followers));
  if (damage) return damage;
  for (let at = head + RECORD; at <= head + RECORD * followers; at += RECORD) {
    if (at === wholeOf(journal)) {
      const why = `record ${head / RECORD} says that ${followers} records of its group follow`;
      const how = at === journal.length ? "missing" : "cut off";
      return [`record ${at / RECORD} is ${how}, and ${why}`, at, Math.max(journal.length - 1, at)];
    }
    if (journal[at] === OPEN) {
      const words = `is open, and stands inside the group of record ${head / RECORD}`;
      return [`record ${at / RECORD} ${words}`, at, at];
    }
    const other = damageOfRecord(
      journal, at, ending, () => wrongFollower(followersAt(journal, at)));
    if (other) return other;
  }
  return undefined;
}

/** Why the first record of a group does not say this. */
function wrongCount(followers) {
  if (followers <= MOST_FOLLOWERS) return undefined;
  return `says that ${followers} records of its group follow, and at most ${MOST_FOLLOWERS} may`;
}

function wrongFollower(followers) {
  if (followers === 0) return undefined;
  return `stands inside a group, and says that ${followers} records follow, and not 0`;
}

/** What is wrong behind the gate of an entry's record; `wrong` says what is with its followers. */
function damageOfRecord(journal, at, ending, wrong) {
  const found = (words, first, last = first) =>
    [`record ${at / RECORD} ${words}`, at + first, at + last];
  const kind = KINDS[journal[at + KIND]];
  if (!kind) return found(`has kind ${journal[at + KIND]}, ${wrongKind(journal, at)}`, KIND);
  const words = wrong();
  if (words) return found(words, FOLLOWERS, FOLLOWERS + 1);
  if (!isUsable(counterOf(journal, at + NUMBER))) {
    const why = "its counter is zero or has more than ten one bits";
    return found(`has the number of no transaction: ${why}`, FIGURE - 3, FIGURE - 1);
  }
  const wrongNumber = isReversal(journal, at / RECORD) && whyNotReversed(journal, at);
  if (wrongNumber) {
    return found(`reverses a number that it may not: ${wrongNumber}`, FIGURE, OUTCOME - 1);
  }
  if (!kind.texts[journal[at + OUTCOME]]) {
    return found(`has ${kind.outcome} ${journal[at + OUTCOME]}, and not ${kind.all}`, OUTCOME);
  }
  for (let place = ZEROS; place < RECORD; place += 1) {
    if (journal[at + place]) return found(`has ${kind.name}, and lacks ${ending}`, place);
  }
  return undefined;
}

/** Why a record has no kind of an entry. */
function wrongKind(journal, at) {
  return at === 0 && journal[KIND] === 0 ? "as a new journal or a copy has until it is whole"
    : "and not 1, a payment, or 2, a reversal";
}

/** Why the number that a reversal reverses, by its record, is none that it may; or nothing. */
function whyNotReversed(journal, at) {
  const counter = figureOf(journal, at / RECORD);
  if (counter >= SPENT) return "its counter has more than 21 bits";
  if (!isUsable(counter)) return "its counter is zero or has more than ten one bits";
  return counter === counterOf(journal, at + NUMBER) ? "it is its own" : undefined;
}

/** What is wrong behind the last group. */
function damageBehind(journal, end) {
  for (let at = end; at < wholeOf(journal); at += RECORD) {
    if (journal[at] === OPEN) {
      const words = `is open, and record ${end / RECORD} before it is closed, and of no group`;
      return [`record ${at / RECORD} ${words}`, at, at];
    }
  }
  return undefined;
}
