// The laws of the README, each with the numbers that it speaks of at a moment.
import * as calls from "./calls.js";
import { LIFE, counterOf, path, placeOf, withCounter } from "./counters.js";
import { bytesOf, counted, hex } from "./hexadecimal.js";
import { registersOf } from "./registers.js";
import { restOf } from "./stage_books.js";
import { isStoreFault } from "./stage_outcomes.js";
import { isStopped } from "./stage_scene.js";

const different = (list) => new Set(list).size;
const many = (count, one, more = `${one}s`) => `${counted(count)} ${count === 1 ? one : more}`;
const initialNumber = (ksn) => hex(withCounter(bytesOf(ksn), 0));

/** The laws: what each says, the numbers of now, and whether they bear it out. */
export function lawsOf(scene, books, terminals) {
  return [usedOnce(scene), acceptedOnce(scene), ownKey(scene), completedByHost(scene),
    noUsedKey(terminals), booksAgree(scene, books)];
}

function usedOnce({ requests }) {
  const count = different(requests.map((it) => it.ksn));
  return law("No two transactions use one number.", count === requests.length,
    `${many(requests.length, "request")} went out, under ${many(count, "different number")}.`);
}

/** The answers with which the host accepted a request: of those it gave again, the first. */
function acceptances({ rows }) {
  const seen = new Set();
  return rows.filter(({ outcome, event }) => {
    if (outcome.kind === "accepted") return true;
    if (outcome.kind !== "judged undone" || seen.has(event.frame)) return false;
    return seen.add(event.frame);
  }).map((it) => ({ ksn: it.outcome.ksn, frame: it.arrived.frame }));
}

function acceptedOnce(scene) {
  const all = acceptances(scene);
  const count = different(all.map((it) => it.ksn));
  return law("The host accepts each number at most once.", count === all.length,
    `${many(all.length, "time")} accepted, ${many(count, "number")}.`);
}

/** Whether a terminal owns the number of a load from then on: where its store failed, it may be kept. */
const isOwned = ({ event, outcome }) =>
  event.command === "load" && (outcome.kind === "loaded" || isStoreFault(outcome));

function ownKey(scene) {
  const owners = new Map(scene.rows.filter(isOwned).map((it) => [it.event.ksn.toUpperCase(), it.end]));
  const all = acceptances(scene);
  const own = all.filter((it) => owners.get(initialNumber(it.ksn)) === it.frame.terminal);
  return law("For each accepted request the host derives the terminal's own key.",
    own.length === all.length,
    `${counted(own.length)} of ${counted(all.length)} accepted requests came from the terminal that `
    + "was loaded under the number, and had a right MAC under its key.");
}

/** What terminals completed: of each purchase its state, its code and when. */
function completions({ rows }) {
  const found = new Map();
  for (const { at, end, outcome: { kind, kept: state, ksn, of, code } } of rows) {
    const isToldLater = kind === "restarted" && state && state !== "open";
    if (!isToldLater && kind !== "done" && kind !== "undone") continue;
    const isUndone = kind === "undone" || state === "undone";
    const number = of ?? ksn;
    const name = `${end} ${number} ${isUndone ? "undone" : "done"}`;
    if (!found.has(name)) {
      found.set(name, { at, end, number, isUndone, isToldLater, code: state === "approved" ? "00" : code });
    }
  }
  return [...found.values()];
}

/** Whether a reply of the host that says this had arrived by then. */
const isReplied = ({ answers }, { at, end, number, isUndone, code }) => answers.some((it) =>
  it.arrivals.some((arrival) => arrival.end === end && arrival.row <= at)
  && (isUndone ? it.says.of === number : it.says.ksn === number && it.says.code === code));

function completedByHost(scene) {
  const done = completions(scene);
  const right = done.filter((it) => isReplied(scene, it));
  const later = done.filter((it) => it.isToldLater).length;
  return law("A terminal completes only with the host's reply to its own number.",
    right.length === done.length,
    `${many(done.length, "transaction")} completed, ${counted(right.length)} with the host's own reply`
    + `${later ? `; ${counted(later)} of them told at a restart` : ""}.`);
}

const law = (says, holds, words) => ({ says, holds, words });

// Keys

/** The initial key of a number, where the configuration has its base derivation key. */
function initialOf({ facts }, ksn) {
  const bdk = facts.bdks.find((it) => ksn.startsWith(it.prefix.toUpperCase()));
  return bdk && calls.initialKey(bytesOf(bdk.key), bytesOf(initialNumber(ksn)));
}

/** The keys in the registers of a terminal whose next number this is; without one there are none. */
function keysHeld(scene, next) {
  const initial = next && initialOf(scene, next);
  if (!initial) return [];
  const registers = registersOf(calls.registersAt(initial, bytesOf(next)));
  return registers.filter((it) => it.key).map((it) => hex(it.key));
}

/** The keys of a number and of its ancestors in the key tree. */
function keysOf(scene, ksn) {
  const initial = initialOf(scene, ksn);
  const number = bytesOf(ksn);
  return path(counterOf(number)).map((counter) => hex(
    counter ? calls.deriveFromInitial(initial, withCounter(number, counter)) : initial));
}

/**
 * Of each terminal: its used numbers, that of them whose reply it waits for, the keys that its registers
 * hold, and those of these that are of used numbers.
 */
export const openedAll = (scene, kept) => terminalsOf(scene).map((it) => opened(scene, it, kept));

function opened(scene, end, kept) {
  const { short } = scene;
  const loads = new Set(scene.rows.filter((it) => it.end === end && isOwned(it)).map((it) => it.event.ksn));
  const used = scene.requests.filter((it) => it.terminal === end).map((it) => it.ksn);
  const next = kept.get(end).next;
  const held = keysHeld(scene, next);
  const spent = new Set(used.flatMap((it) => keysOf(scene, it)));
  const left = next ? LIFE + 1 - placeOf(counterOf(bytesOf(next))) : 0;
  return { end, short, loads: loads.size, used, held, left, next, pending: scene.pending.get(end),
    found: held.filter((it) => spent.has(it)) };
}

const terminalsOf = (scene) => scene.ends.filter((it) => it !== "host");

function noUsedKey(terminals) {
  const count = (list) => terminals.reduce((total, it) => total + it[list].length, 0);
  return law("No register or stored image holds the key of a used number or of its ancestors.",
    count("found") === 0,
    `${many(count("used"), "used number")}; ${many(count("held"), "key")} in the registers, of which `
    + `${counted(count("found"))} ${count("found") === 1 ? "is" : "are"} of a used number or an ancestor.`
    + terminals.filter((it) => it.pending).map(inMemory).join(""));
}

const inMemory = ({ end, short, pending }) =>
  ` The memory of ${end} has the key of ${short(pending)} until the reply comes or the power fails.`;

// Books

function booksAgree(scene, books) {
  const says = "Whenever a terminal is at rest, the payments that stand at the host under its numbers "
    + "are exactly those that it was told as approved.";
  if (!books.isJournal) {
    const { length: standing } = books.purchases.filter((it) => it.host === "approved");
    const { length: told } = books.purchases.filter((it) => it.isTold);
    return { says, holds: undefined, words: "This law is of a host with a journal. Over a log "
      + `${counted(standing)} approved at the host, ${counted(told)} told to terminals.` };
  }
  const tills = terminalsOf(scene).map((it) => restOf(books, it, isStopped(scene, it)));
  const isWaiting = tills.every(isAgreed) && !tills.every((it) => it.isAtRest);
  return { says, isWaiting, holds: tills.every(isAgreed),
    words: tills.map((it) => restWords(it, scene)).join(" ") };
}

const numbersOf = (purchases) => purchases.map((it) => it.ksn).join();
/** At rest both lists are equal; else one payment more may stand at the host. */
const isAgreed = ({ isAtRest, standing, told }) => (isAtRest
  ? numbersOf(standing) === numbersOf(told)
  : told.every((it) => it.host === "approved") && standing.length <= told.length + 1);

function restWords({ end, open, isAtRest, isStopped: isDown, standing, told }, { short }) {
  const counts = `${many(standing.length, "payment stands", "payments stand")}, ${counted(told.length)} `
    + `${told.length === 1 ? "was" : "were"} told`;
  if (isAtRest) return `${end} is at rest: ${counts}.`;
  return `${end} waits, because ${isDown ? "it is stopped" : `${short(open.ksn)} is open`}: ${counts}.`;
}
