// The panel "Find the key": which number of a terminal, and which of its keys, made what is given.
import { withCounter } from "./counters.js";
import { initialKeyOf } from "./derive.js";
import { element, follow, read, renew, show } from "./fields.js";
import { KINDS, readSought } from "./find_sought.js";
import { counted, hex, serialNumber, whole } from "./hexadecimal.js";
import { release } from "./hooks.js";
import { numberBehind, search } from "./search.js";

const MOST_NUMBERS = 100000;
const BY_CHANCE = " A key may also decipher a PIN block by chance, nearly always to a PIN of 12 digits:"
  + " over 100,000 numbers in one search of 28.";
const SHORT_BITS = 32;
const BY_CHANCE_SHORT = " Another key may have the same 4 bytes by chance: over 100,000 numbers in one"
  + " search of some 3,000.";

// The question that is being searched, and that which has an answer, with the answer.
let running;
let answered;

/** The number from which the search begins; undefined where none is given, or a wrong one. */
function readBegin(sought) {
  const isFirst = element("find-begin").value === "first";
  const isOfFrame = isFirst && element("find-kind").value === "frame";
  element("find-ksn").closest(".field").hidden = isOfFrame;
  const ksn = isOfFrame ? sought?.terminal : read("find-ksn", serialNumber);
  return ksn && isFirst ? withCounter(ksn, 1) : ksn;
}

/** What the fields ask for; undefined where one of them is wrong. */
function readQuestion() {
  const sought = readSought(element("find-kind").value);
  const from = readBegin(sought);
  const initial = initialKeyOf("find", from);
  const most = read("find-window", whole(1, MOST_NUMBERS));
  if (!sought || !from || !initial || !most) return undefined;
  const name = [sought.name, hex(from), hex(initial), most].join(" ");
  return { name, sought, from, initial, most };
}

function showFields() {
  const kind = element("find-kind").value;
  const all = Object.values(KINDS).flatMap((it) => Object.keys(it.readers));
  for (const name of all) {
    element(`find-${name}`).closest(".field").hidden = !(name in KINDS[kind].readers);
  }
  element("find-as").hidden = kind !== "mac";
  element("find-bit").closest(".choice").hidden = kind !== "mac";
}

function showTried(tried, most) {
  element("find-progress").max = most;
  element("find-progress").value = tried;
  const words = `${counted(tried)} of ${counted(most)} numbers tried`;
  element("find-tried").textContent = tried ? words : "";
}

function showButtons(question) {
  element("find-start").disabled = !question || Boolean(running);
  element("find-stop").disabled = !running;
}

/** What was tried under each key: a sentence. */
const triedBy = ({ ways }) => ` Under each key was tried: ${ways.join(", ")}.`;

/** How a search ended that found nothing. */
function endOf({ from, sought }, { tried, isStopped }) {
  if (isStopped) return `Stopped: ${counted(tried)} numbers from ${hex(from)} on are tried.`;
  if (tried === 0) return "The terminal has no number from there on.";
  const numbers = tried === 1 ? "One number is" : `${counted(tried)} numbers are`;
  return `Not found: ${numbers} tried, from ${hex(from)} on.${triedBy(sought)}`;
}

function showAnswer() {
  const { question, answer } = answered ?? {};
  element("find-result").hidden = !answer?.found;
  element("find-said").textContent = !answer || answer.found ? "" : endOf(question, answer);
  element("find-on").closest(".act").hidden = !nextToTry();
  if (!answer) return;
  showTried(answer.tried, question.most);
  if (answer.found) showFound(answer.found, question);
}

/** The number from which a search goes on behind the answer; nothing where there is none. */
function nextToTry() {
  const { question, answer } = answered ?? {};
  return answer?.tried ? numberBehind(question.from, answer.tried) : undefined;
}

/** What may be a chance about what is found: a sentence, or nothing. */
function chanceOf({ pinBy, bits }) {
  if (pinBy) return BY_CHANCE;
  return bits === SHORT_BITS ? BY_CHANCE_SHORT : "";
}

function showFound({ ksn, use, key, way }, { sought }) {
  show("find-number", hex(ksn));
  show("find-key-name", use.words);
  show("find-way", way);
  show("find-key", hex(key));
  show("find-pin", sought.pinBy ? sought.pinBy(key) : "");
  element("find-said").textContent = `Found: the ${use.words} of ${hex(ksn)}.${triedBy(sought)}`
    + chanceOf(sought);
}

/** Shows the fields anew. A search, or an answer, for other fields ends. */
function renewed() {
  renew(element("panel-find"));
  showFields();
  const question = readQuestion();
  if (running && running.name !== question?.name) running = undefined;
  if (answered && answered.question.name !== question?.name) answered = undefined;
  if (!running) showTried(0, question?.most ?? 1);
  showAnswer();
  showButtons(question);
}

async function start() {
  const question = readQuestion();
  if (!question || running) return;
  running = question;
  answered = undefined;
  renewed();
  const answer = await search(question, (tried) => {
    if (running !== question) return false;
    showTried(tried, question.most);
    return true;
  });
  // Fields that changed meanwhile have asked for something else.
  if (running === question) end(question, answer);
}

function end(question, answer) {
  running = undefined;
  answered = { question, answer };
  renewed();
}

function stop() {
  if (running) end(running, { tried: element("find-progress").value, isStopped: true });
}

/** Searches on behind the last number that was tried. The working set keeps its own number. */
function goOn() {
  const next = hex(nextToTry());
  release("find-ksn");
  type("find-begin", "number");
  type("find-ksn", next);
  start();
}

/** Gives the number that was found to the working set of the page. */
function useNumber() {
  const detail = hex(answered.answer.found.ksn);
  document.dispatchEvent(new CustomEvent("set-ksn", { detail }));
}

/** Puts a value into a field as somebody who types it does. */
function type(id, value) {
  element(id).value = value;
  element(id).dispatchEvent(new Event("input", { bubbles: true }));
}

/** Shows the panel with a frame whose key is sought, under a key of a kind: "bdk" or "initial". */
export function findKeyOf(frame, kind, key) {
  element(`find-from-${kind}`).checked = true;
  type("find-kind", "frame");
  type("find-frame", hex(frame));
  type(`find-${kind}`, hex(key));
  element("tab-find").click();
}

export function startFind() {
  follow(element("panel-find"), renewed);
  element("find-start").addEventListener("click", start);
  element("find-stop").addEventListener("click", stop);
  element("find-on").addEventListener("click", goOn);
  element("find-use").addEventListener("click", useNumber);
}
