// The tables of the stage: purchases side by side, what a thief finds, and the laws.
import { made, tableOf } from "./fields.js";
import { counted } from "./hexadecimal.js";
import { restOf, totalsOf } from "./stage_books.js";
import { lawsOf } from "./stage_laws.js";
import { helpFor, knownOf } from "./stage_help.js";
import { isStopped } from "./stage_scene.js";
import { armedWords, codeWords, keptSentence, wordsOf } from "./stage_words.js";

// Purchases

const AT_TILL = {
  open: "open: not known yet", waiting: "waits for its reply", approved: "approved", undone: "undone",
  "given up": "given up: not known", unknown: "not known before its restart",
};
const AT_HOST = {
  nothing: "nothing", undone: "approved, and undone", barred: "reversed, never stands",
  undecided: "number used, not decided", unknown: "not known before its restart",
};

const declined = (code) => (code ? codeWords(code) : "declined");
const atTill = ({ till, code }) => (till === "declined" ? declined(code) : AT_TILL[till]);

function atHost({ host, code }, isJournal) {
  if (host === "declined") return declined(code);
  if (host === "approved") return isJournal ? "approved, stands" : "approved";
  return AT_HOST[host];
}

const isPaidOnce = ({ host, isTold }) => Boolean(isTold) !== (host === "approved");

/** The table of the purchases, with both totals. */
export function purchaseTable(books) {
  const names = ["number", "terminal", "amount", "at the terminal", "at the host",
    "paid at one side alone"];
  const fill = (body) => {
    for (const it of books.purchases) body.append(purchaseRow(it, books));
    const { till, host } = totalsOf(books);
    const row = made("tr", "", { class: "totals", "data-differs": till !== host });
    const why = till === host ? "" : `the totals differ by ${counted(Math.abs(host - till))}`;
    row.append(
      made("th", "paid", { scope: "row", colspan: 3 }),
      made("td", counted(till), { class: "till", "data-name": "at the terminal" }),
      made("td", counted(host), { class: "host", "data-name": "at the host" }),
      made("td", why, { class: "why" }));
    body.append(row);
  };
  return tableOf(names, fill, "Purchases: at the terminal and at the host");
}

/** A purchase that is paid at one side alone has what settles it. */
function purchaseRow(purchase, books) {
  const why = isPaidOnce(purchase) ? helpFor(books, purchase) : "";
  const row = made("tr", "", { "data-number": purchase.ksn, "data-differs": why !== "" });
  row.append(
    made("td", books.scene.short(purchase.ksn), { class: "number", title: purchase.ksn }),
    made("td", purchase.end, { class: "end" }),
    made("td", counted(purchase.amount), { class: "amount", "data-name": "amount" }),
    made("td", atTill(purchase), { class: "till", "data-is": purchase.till, "data-name": "at the terminal" }),
    made("td", atHost(purchase, books.isJournal),
      { class: "host", "data-is": purchase.host, "data-name": "at the host" }),
    made("td", why, { class: "why" }));
  return row;
}

/** Whether all are at rest, and else who is not, and why that is no rest. */
export function restWords(scene, books) {
  const { till, host } = totalsOf(books);
  const totals = `Paid at the terminals: ${counted(till)}. Paid at the host: ${counted(host)}.`;
  if (!books.isJournal) return { isRest: till === host, words: `${totals}${differenceWords(books)}` };
  const busy = scene.ends.filter((it) => it !== "host")
    .map((it) => restOf(books, it, isStopped(scene, it))).filter((it) => !it.isAtRest);
  if (!busy.length) return { isRest: true, words: `At rest. ${totals}` };
  const why = busy.map((it) => busyWords(it, books));
  return { isRest: false, words: `Not at rest: ${why.join(" ")} ${totals}` };
}

/** Over a log: by which payments the totals differ, and what settles each. */
function differenceWords(books) {
  const once = books.purchases.filter(isPaidOnce);
  const each = once.map((it) => `${books.scene.short(it.ksn)}: ${helpFor(books, it)}`);
  return each.length ? ` They differ by ${each.join("; ")}.` : "";
}

function busyWords({ end, open, isStopped: isDown }, books) {
  if (isDown) return `${end} is stopped, and tells what its book keeps at its restart.`;
  const help = helpFor(books, open);
  return `${end} does not know what became of ${books.scene.short(open.ksn)}. ${knownOf(books, open)}. `
    + `To settle it: ${help}.`;
}

// Stores

/** What the stores of each end would have at a restart in this moment. */
export const storeItems = (scene, kept) => scene.ends.flatMap((end) => [
  made("dt", end), made("dd", storeWords(scene, end, kept.get(end)), { "data-end": end })]);

function storeWords(scene, end, outcome) {
  const { isJournal, room } = scene.facts;
  const down = isStopped(scene, end) ? "It is stopped. " : "";
  const words = end === "host"
    ? `Its ${isJournal ? "journal" : "log"} has ${outcome.count} of ${room} records in use.`
    : keptSentence(outcome);
  return `${down}${words}${armedWords(scene, end)}`;
}

// Keys

/** For each terminal that was loaded what whoever opens it now can derive, and what not. */
export function thiefCards(terminals) {
  const loaded = terminals.filter((it) => it.held.length || it.used.length);
  return loaded.length ? loaded.map(thiefCard) : [made("p", "No terminal is loaded.")];
}

function thiefCard(it) {
  const card = made("div", "", { class: "thief", "data-end": it.end, "data-pending": it.pending ?? "" });
  card.append(said("can", `${it.end}: can derive `, canDerive(it)),
    said("cannot", `${it.end}: cannot derive `, cannotDerive(it)));
  return card;
}

function canDerive({ short, held, left, next, pending }) {
  const ahead = held.length
    ? `the keys of its ${counted(left)} numbers from ${short(next)} on: they follow from the `
      + `${counted(held.length)} keys in its registers.` : "nothing from its registers: they are empty.";
  if (!pending) return ahead;
  return `${ahead} Its memory has the key of ${short(pending)} too, until the reply comes or the power `
    + "fails.";
}

/** What is over is gone: all used numbers but the one that waits for its reply. */
function cannotDerive({ loads, used, pending, found }) {
  const count = used.length - (pending ? 1 : 0);
  const initial = loads > 1 ? `any of its ${counted(loads)} initial keys` : "its initial key";
  if (count === 0) return `${initial}. No transaction of it is over yet.`;
  const left = found.length ? counted(found.length) : count === 1 && loads < 2 ? "neither" : "none";
  return `${initial}, and the ${count === 1 ? "key" : "keys"} of its ${counted(count)} past `
    + `transaction${count === 1 ? "" : "s"}: ${left} of them is in it any more.`;
}

function said(name, front, words) {
  const it = made("p", "", { class: name });
  it.append(made("strong", front), words);
  return it;
}

// Laws

/** The laws as items of a list. */
export function lawItems(scene, books, terminals) {
  return lawsOf(scene, books, terminals).map(({ says, holds, isWaiting, words }) => {
    const state = holds === undefined ? "silent" : !holds ? "broken" : isWaiting ? "waits" : "holds";
    const it = made("li", "", { "data-law": state });
    it.append(made("strong", says), " ", made("span", words, { class: "numbers" }));
    return it;
  });
}

// Events

/** The events and what came of each, for whoever does not see the picture. */
export function eventTable(scene) {
  const fill = (body) => {
    for (const row of scene.rows) {
      const it = made("tr", "", { "data-row": row.at + 1 });
      it.append(
        made("td", row.at + 1, { class: "place" }), made("td", row.event.text, { class: "event" }),
        made("td", wordsOf(row, scene).sentence, { class: "meaning" }),
        made("td", row.outcome.line, { class: "line" }));
      body.append(it);
    }
  };
  const names = ["", "event", "what comes of it", "line of dukpt run"];
  return tableOf(names, fill, "The events, and what comes of each");
}
