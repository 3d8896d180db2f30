// What can happen on the stage at a moment, as buttons: each one writes a line of the script.
import { element, made, setFault } from "./fields.js";
import { counted } from "./hexadecimal.js";
import { openPurchase } from "./stage_books.js";
import { helpFor } from "./stage_help.js";
import { isStopped } from "./stage_scene.js";
import { lostRemark } from "./stage_script.js";
import { answerWords } from "./stage_words.js";

const FIRST_DEVICE = 0x3210E00000;
const NEXT_DEVICE = 0x200000;

const PICKED = () => element("stage-terminal").value;

/** Puts options into a select; the one that was chosen stays so, where it is still there. */
function fill(select, options) {
  const chosen = select.value;
  select.replaceChildren(...options.map(([value, words]) => made("option", words, { value })));
  if (options.some(([value]) => value === chosen)) select.value = chosen;
}

/** The terminals, cards and stores that a configuration has. */
export function fillChoices({ terminals, cards }, isJournal) {
  const ends = Array.from({ length: terminals || 1 }, (_, at) => `t${at + 1}`);
  fill(element("stage-terminal"), ends.map((it) => [it, it]));
  fill(element("stage-card"), [
    ...cards.map(({ pan, pin, limit }) => [`${pan} ${pin}`, `${pan}, limit ${limit}`]),
    ...cards.slice(0, 1).map(({ pan, pin }) => [`${pan} ${otherPin(pin)}`, `${pan}, wrong PIN`]),
    [`${unknownPan(cards)} 1234`, "a card that the issuer does not know"],
  ]);
  const cells = ends.map((it) => [it, `${it}: cell`]);
  const books = isJournal ? ends.map((it) => [`${it} book`, `${it}: book`]) : [];
  fill(element("stage-store"),
    [...cells, ...books, ["host", `host: ${isJournal ? "journal" : "log"}`]]);
  element("stage-reverse").hidden = !isJournal;
}

const otherPin = (pin) => (pin === "9999" ? "0000" : "9999");

function unknownPan(cards) {
  let pan = 4012345678917;
  while (cards.some((it) => it.pan === String(pan))) pan += 1;
  return String(pan);
}

/** An initial key serial number that no event of the script loads. */
export function newInitialNumber({ bdks }, events) {
  const prefix = (bdks[0]?.prefix ?? "FFFF987654").toUpperCase();
  const loaded = new Set(events.filter((it) => it.command === "load").map((it) => it.ksn.toUpperCase()));
  for (let device = FIRST_DEVICE; ; device -= NEXT_DEVICE) {
    const ksn = `${prefix}${device.toString(16).toUpperCase().padStart(10, "0")}`;
    if (!loaded.has(ksn)) return ksn;
  }
}

const MOST = 4294967295;

/** The number of a field, or undefined, with the fault below it. */
function numberOf(id, name) {
  const number = element(id).value.trim().replace(/^0+(?=\d)/, "");
  const isNumber = /^\d+$/.test(number) && Number(number) <= MOST;
  setFault(id, isNumber ? "" : `${name} is a whole number from 0 to ${counted(MOST)}, of digits alone.`);
  return isNumber ? number : undefined;
}

function beginLine() {
  const amount = numberOf("stage-amount", "An amount");
  return amount && `begin ${PICKED()} ${element("stage-card").value} ${amount}`;
}

function armLine() {
  const steps = numberOf("stage-steps", "The count of steps");
  return steps && `arm ${element("stage-store").value} ${steps}`;
}

/** The line that a button with a fixed place writes, or undefined where a field of it is wrong. */
export const LINES = {
  "stage-load": ({ facts, events }) => `load ${PICKED()} ${newInitialNumber(facts, events)}`,
  "stage-begin": beginLine,
  "stage-reverse": () => `reverse ${PICKED()}`,
  "stage-restart": () => `restart ${PICKED()}`,
  "stage-restart-host": () => "restart host",
  "stage-arm": armLine,
};

/** The buttons of the frames: those that are under way, and those that may come again. */
export function frameButtons(scene) {
  const all = [...scene.requests, ...scene.answers];
  const isNew = (it) => !it.arrivals.length && it.lost === undefined;
  return { fresh: all.filter(isNew).map(freshOf), again: all.filter((it) => !isNew(it)).map(againOf) };
}

const nameOf = ({ kind, number, isReversal, terminal }) => (kind === "request"
  ? `${isReversal ? "reversal" : "request"} ${number} of ${terminal}` : `answer ${number}`);

const deliveryOf = ({ kind, number, terminal }) =>
  (kind === "request" ? `up ${number}` : `down ${number} ${terminal}`);
const goalOf = ({ kind, terminal }) => (kind === "request" ? "the host" : terminal);

function buttonOf(frame, act, words, line) {
  return made("button", words,
    { type: "button", id: `stage-${act}-${frame.kind}-${frame.number}`, "data-line": line });
}

function freshOf(frame) {
  const item = made("li", "", { class: frame.kind });
  const says = frame.kind === "answer" ? ` (${answerWords(frame)})` : "";
  item.append(made("span", `${nameOf(frame)}${says}`),
    buttonOf(frame, "deliver", `Deliver to ${goalOf(frame)}`, deliveryOf(frame)),
    buttonOf(frame, "lose", "Lose", lostRemark(frame.kind, frame.number)));
  for (const it of item.querySelectorAll("button")) {
    it.setAttribute("aria-label", `${it.textContent}: ${nameOf(frame)}`);
  }
  return item;
}

function againOf(frame) {
  const item = made("li");
  item.append(buttonOf(frame, "again", `${nameOf(frame)} to ${goalOf(frame)}`, deliveryOf(frame)));
  return item;
}

/** Whether the terminal that is chosen has something to reverse. */
export const canReverse = (scene, books) =>
  books.isJournal && !isStopped(scene, PICKED()) && Boolean(openPurchase(books, PICKED()));

/** What helps the terminal that is chosen. */
export function adviceOf(scene, books) {
  const end = PICKED();
  if (isStopped(scene, end)) return `${end} is stopped: restart it.`;
  if (isStopped(scene, "host")) return "The host is stopped: restart it.";
  const open = books.isJournal && openPurchase(books, end);
  return open ? `${end} has a purchase open: ${helpFor(books, open)}.` : "";
}
