// The words of the stage: what came of an event, short for the picture and as a sentence.
import { counted } from "./hexadecimal.js";

const CODES = {
  14: "no such card", 30: "PIN block unreadable", 51: "over the card's limit", 55: "wrong PIN",
};
const REASONS = ["", "malformed", "unknown key set", "bad counter", "bad MAC", "used", "log full"];
const outcomeWords = (code) => `${code === "00" ? "approved" : "declined"} (${code})`;
const whyDeclined = (code) => CODES[code];
export const codeWords = (code) => (
  code === "00" ? outcomeWords(code) : `${outcomeWords(code)}: ${whyDeclined(code)}`);
/** Why an answer refuses. A journal keeps its last records for reversals: while some are left it has no
 * room for payments, and is not full. */
function reasonWords(reason, { isReversal, left }, { isJournal }) {
  const why = REASONS[reason];
  if (!isJournal || why !== "log full") return `refused: ${why} (${reason})`;
  return isReversal || left === 0 ? `refused: journal full (${reason})`
    : `no room for payments (${reason})`;
}

// What did not come to pass, by the event, in short and as a sentence; and why, by the name of the fault.
const FAILED = {
  load: ["not loaded", ({ end }) => `${end} is not loaded`],
  begin: ["does not begin", ({ end }) => `${end} does not begin to pay`],
  reverse: ["does not reverse", ({ end }) => `${end} reverses nothing`],
  down: ["not taken", ({ end, frame }) => `${end} does not take answer ${frame}`],
  up: ["no answer", () => "The host gives no answer"],
  restart: ["does not come up", ({ end }) => `A restart of ${nameOf(end)} fails`],
};
const FAULTS = {
  Stopped: "it is stopped until its restart",
  NotPending: "nothing waits for it any more",
  NotMine: "it answers another number",
  Malformed: "it waits for no such answer",
  BadMac: "the MAC is wrong",
  Open: "a purchase is open",
  NothingOpen: "no purchase is open",
  NotLoaded: "it has no initial key",
  Spent: "no number is left for it",
  IksnSpent: "it has or had this initial key",
  LoadsSpent: "it was loaded nine times",
};

const note = (text, detail, tone, sentence) => ({ text, detail, tone, sentence });

/** What came of the event of a row: a note, its detail, its tone and a sentence. */
export function wordsOf(row, scene) {
  const words = WORDS[row.outcome.kind];
  return words ? words(row, row.outcome, scene) : note(row.outcome.line, "", "", `${row.outcome.line}.`);
}

const WORDS = {
  loaded: ({ end }, { ksn }, { short }) => note("loaded", `initial key ${short(ksn)}`, "",
    `${end} is loaded with the initial key of ${ksn}.`),
  sent: ({ end, event }, { ksn, frame }, { short }) => note(
    `takes number ${short(ksn)}`, "its key leaves the registers", "",
    `${end} begins to pay ${counted(event.amount)}. It takes number ${ksn}, whose key leaves its `
    + `registers, and sends request ${frame}.`),
  reversing: ({ end }, { ksn, of, frame }, { short }) => note(`takes number ${short(ksn)}`,
    `to reverse ${short(of)}`, "",
    `${end} reverses ${of}: under number ${ksn} it sends request ${frame}, a reversal.`),
  accepted: ({ event, arrived }, { ksn, code, frame }, { facts }) => note(outcomeWords(code),
    whyDeclined(code) ?? kept(facts, arrived.frame), code === "00" ? "good" : "",
    `The host accepts request ${event.frame}, and number ${ksn} is used from now on. `
    + `Answer ${frame}: ${codeWords(code)}.`),
  repeated: ({ event }, { code, frame }) => note("the same reply again", outcomeWords(code), "",
    `The host knows request ${event.frame}, and gives the same reply again. Answer ${frame}: `
    + `${codeWords(code)}.`),
  "judged undone": ({ event }, { of, code, frame }, { short }) => (code === "01"
    ? note("undone", `${short(of)} does not stand`, "good",
      `The host takes the reversal, request ${event.frame}: the payment ${of} was approved, and is `
      + `undone. Answer ${frame} says so.`)
    : note("none stands", `${short(of)} never will`, "good",
      `The host takes the reversal, request ${event.frame}: no approved payment ${of} stands, and none `
      + `ever will. Answer ${frame} says so.`)),
  "judged refused": refusedWords,
  done: ({ end, event }, { code, ksn }) => note(outcomeWords(code), whyDeclined(code) ?? "paid",
    code === "00" ? "good" : "",
    `Answer ${event.frame} completes payment ${ksn} at ${end}: ${codeWords(code)}.`),
  undone: ({ end, event }, { of }, { short }) => note("undone", `${short(of)} is not paid`, "good",
    `Answer ${event.frame} reaches ${end}: payment ${of} is undone. Nothing is paid.`),
  refused: ({ end, event, arrived }, { reason, ksn }, { facts }) => note(
    reasonWords(reason, arrived.frame, facts), "has no MAC, so nothing ends", "bad",
    `Answer ${event.frame} reaches ${end}. Of ${ksn} it says: ${reasonWords(reason, arrived.frame, facts)}. `
    + "It has no MAC, so the terminal still waits."),
  restarted: ({ end }, it, { short }) => note("restarted", stateWords(it, short), "restart",
    `${end} is restarted. ${keptSentence(it)}`),
  used: (row, { count }, { facts }) => note("restarted", usedWords(count, facts), "restart",
    `The host is restarted. Its ${facts.isJournal ? "journal" : "log"} has ${usedWords(count, facts)}.`),
  armed: ({ end, event }, { book, passes }, { facts }) => note("the power will fail",
    `behind ${steps(passes)} of its ${storeOf(end, book, facts)}`, "armed",
    `From now on the ${storeOf(end, book, facts)} of ${nameOf(event.end)} lets ${steps(passes)} pass. `
    + "Then the power fails."),
  fault: faultWords,
  elsewhere: ({ end, event }) => note("not loaded", "another terminal owns this key", "",
    `${end} is not loaded: another terminal owns the initial key of ${event.ksn}.`),
  "no key set": ({ end, event }) => note("not loaded", "no base derivation key for it", "bad",
    `${end} is not loaded: the security module has no base derivation key for ${event.ksn}.`),
  "no such": ({ event }, { what }) => note(`no such ${what}`, "", "bad",
    `“${event.text}”: there is no such ${what}.`),
};

const nameOf = (end) => (end === "host" ? "the host" : end);

/** The stores of an end that are armed, and did not fail yet. */
export function armedWords({ stores, stops, facts }, end) {
  if (stops.some((it) => it.end === end && it.until === undefined)) return "";
  const armed = ["", " book"].filter((it) => Number.isFinite(stores.armed.get(`${end}${it}`)));
  return armed.map((it) => ` Its ${storeOf(end, it, facts)} lets ${steps(stores.armed.get(`${end}${it}`))} `
    + "pass, and then the power fails; a restart takes that back.").join("");
}

const steps = (count) => `${count} device step${Number(count) === 1 ? "" : "s"}`;
const storeOf = (end, book, { isJournal }) =>
  (end === "host" ? (isJournal ? "journal" : "log") : book ? "book" : "cell");

const kept = ({ isJournal }, { amount }) => (
  isJournal ? `a payment of ${counted(amount)} stands` : "the number is used");

function refusedWords({ event, sent }, { reason, frame }, { facts }) {
  const words = reasonWords(reason, sent, facts);
  const detail = words.startsWith("no room") ? "the rest is for reversals" : "";
  return note(words, detail, "bad", `The host does not accept request ${event.frame}. `
    + `Answer ${frame}: ${words}${detail && `, ${detail}`}.`);
}

const usedWords = (count, { isJournal }) => (isJournal
  ? `${count} ${count === "1" ? "entry" : "entries"}`
  : `${count} used number${count === "1" ? "" : "s"}`);

function stateWords({ next, state, kept: last }, short) {
  const number = next ? `next is ${short(next)}` : state;
  return last ? `${number}; last: ${last}` : number;
}

/** What the stores of a terminal keep, by what its restart tells. */
export function keptSentence({ next, state, kept: last, ksn, code }) {
  const number = next ? `Its next number is ${next}.`
    : state === "spent" ? "It has no number left." : "It has no initial key.";
  const declined = code ? ` (${code})` : "";
  return last ? `${number} Its book has its last purchase, ${ksn}, as ${last}${declined}.` : number;
}

function faultWords(row, { end, fault }) {
  const failed = row.writes.find((it) => it.failed);
  if (failed) {
    const place = `device step ${failed.failed} of ${failed.steps} of its ${failed.store}`;
    return note("the power fails", `at ${place}`, "power",
      `The power fails at ${nameOf(end)}, at ${place}. It is stopped until its restart.`);
  }
  const [text, sentence] = FAILED[row.event.command];
  const detail = FAULTS[fault] ?? fault;
  return note(text, detail, "", `${sentence(row.event)}: ${detail}.`);
}

/** What stands on the arrow of an answer. */
export function answerWords({ says: { kind, code, reason } }) {
  if (kind === "judged refused") return REASONS[reason] === "used" ? "refused, used" : "refused";
  if (kind === "judged undone") return code === "01" ? "undone" : "none stands";
  return code === "00" ? "approved" : `declined ${code}`;
}
