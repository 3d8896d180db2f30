// The forms of events (docs/FORMATS.md, "Scripts"), for whoever writes a script by hand.

const NUMBER = "0 to 4294967295, without leading zeros";
const TERMINAL = "t1 to t16";

/** Each form, what it means, and what its parts are. */
export const FORMS = [
  ["load T IKSN", "terminal T is loaded with the initial key of a key serial number",
    `T is ${TERMINAL}, IKSN 20 hexadecimal digits whose counter, the last 21 bits, is zero`],
  ["begin T PAN PIN AMOUNT", "a customer begins to pay at terminal T",
    `T is ${TERMINAL}, PAN 12 to 19 digits, PIN 4 to 12 digits, AMOUNT ${NUMBER}`],
  ["up K", "request K reaches the host", `K is ${NUMBER}`],
  ["down K T", "answer K reaches terminal T", `K is ${NUMBER}, T is ${TERMINAL}`],
  ["restart E", "an end is restarted", `E is ${TERMINAL} or host`],
  ["arm E N", "the store of an end lets N device steps pass, and then its power fails",
    `E is ${TERMINAL} or host, N is ${NUMBER}`],
  ["reverse T", "terminal T reverses its open purchase; the host needs a journal", `T is ${TERMINAL}`],
  ["arm T book N", "the same as arm, of a terminal's book; the host needs a journal",
    `T is ${TERMINAL}, N is ${NUMBER}`],
];

const FORMS_OF_TILLS = /^reverse |^arm t\d+ book /;
const LONGEST = 60;

/** Why a line is no event: it is quoted, with what was expected. */
export function whyNoEvent(line, isJournal) {
  const quoted = line.length > LONGEST ? `${line.slice(0, LONGEST)}…` : line;
  return `“${quoted}”. ${reason(line, isJournal)}`;
}

function reason(line, isJournal) {
  if (FORMS_OF_TILLS.test(line) && !isJournal) return "Over a log there is none such: it needs a journal";
  const [command, , third] = line.trim().toLowerCase().split(/\s+/);
  const isBook = command === "arm" && third === "book";
  const known = FORMS.find(([form]) => form.startsWith(`${command} `) && form.includes(" book ") === isBook);
  if (!known) return "The first word has to be load, begin, up, down, restart, arm or reverse";
  const [form, , parts] = known;
  return `The form is “${form}”, in small letters and with one space each: ${parts}`;
}
