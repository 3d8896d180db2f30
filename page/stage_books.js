// The purchases of the stage: the state of each at its terminal and at the host, and both totals.
import { isStoreFault } from "./stage_outcomes.js";

/**
 * The purchases of a scene, in the order of their numbers' use. At the terminal one is `open` (over a
 * journal) or `waiting`, `approved`, `declined`, `undone`, `given up` or `unknown`; at the host
 * `nothing`, `approved`, `declined`, `undone`, `barred` by a reversal that came first, `undecided`
 * (the number is used, and no issuer was asked) or `unknown`.
 */
export function booksOf(scene) {
  const books = { scene, isJournal: scene.facts.isJournal, purchases: [], numbers: new Map(),
    begun: new Map(), kept: [], forgotten: new Set() };
  for (const row of scene.rows) (READERS[row.outcome.kind] ?? (() => {}))(books, row, row.outcome);
  return books;
}

const READERS = {
  loaded(books, { end }) {
    giveUp(books, end);
  },
  sent(books, { end, event }, { ksn, frame }) {
    giveUp(books, end);
    add(books, { ksn, end, amount: event.amount, request: frame });
  },
  accepted(books, row, { ksn, code }) {
    decide(books.numbers.get(ksn), code);
    keepReply(books, ksn);
  },
  repeated(books, row, { ksn, code }) {
    decide(books.numbers.get(ksn), code);
  },
  "judged undone": (books, row, { of, code }) => {
    undo(books.numbers.get(of), code === "01");
  },
  done(books, row, { ksn, code }) {
    tell(books.numbers.get(ksn), code === "00" ? "approved" : "declined", code);
  },
  undone(books, row, { of }) {
    tell(books.numbers.get(of), "undone");
  },
  restarted,
  used: hostRestarted,
  fault: failed,
};

function add(books, it) {
  const purchase = { till: books.isJournal ? "open" : "waiting", host: "nothing", ...it };
  books.purchases.push(purchase);
  books.numbers.set(it.ksn, purchase);
  return purchase;
}

function tell(purchase, state, code) {
  Object.assign(purchase, { till: state, code });
  if (state === "approved") purchase.isTold = true;
}

function decide(purchase, code) {
  Object.assign(purchase, { host: code === "00" ? "approved" : "declined", code });
}

function undo(purchase, wasApproved) {
  if (wasApproved) purchase.host = "undone";
  else purchase.host = ["declined", "unknown"].includes(purchase.host) ? "declined" : "barred";
}

// So many replies a host over a log keeps, until its restart (docs/OPERATION.md).
const KEPT_REPLIES = 64;

function keepReply(books, ksn) {
  books.kept.push(ksn);
  if (books.kept.length > KEPT_REPLIES) books.forgotten.add(books.kept.shift());
}

const openAt = (books, end) =>
  books.purchases.find((it) => it.end === end && ["open", "waiting", "unknown"].includes(it.till));

/** A terminal over a log waits for no reply any more. */
function giveUp(books, end) {
  const purchase = openAt(books, end);
  if (purchase && !books.isJournal) purchase.till = "given up";
}

function restarted(books, { end }, { kept, ksn, code }) {
  giveUp(books, end);
  const begun = books.begun.get(end);
  books.begun.delete(end);
  if (!kept) return;
  // A purchase may be in the book whose request never went out.
  const purchase = books.numbers.get(ksn) ?? add(books, { ksn, end, amount: begun });
  tell(purchase, kept, code ?? purchase.code);
}

/** A store failed: of a till's book it is not known what it keeps, of the host's whether it has more. */
function failed(books, { end, event, arrived, writes }, outcome) {
  if (!isStoreFault(outcome)) return;
  giveUp(books, end);
  if (event.command === "up" && arrived) {
    const purchase = purchaseOf(books, arrived.frame);
    Object.assign(purchase, { before: purchase.host, host: "unknown" });
  }
  if (!writes.some((it) => it.store === "book" && it.failed)) return;
  if (event.command === "begin") books.begun.set(end, event.amount);
  const purchase = openAt(books, end);
  if (purchase) purchase.till = "unknown";
}

/** The purchase of a request, or that of which it is the reversal. */
const purchaseOf = (books, { ksn, of }) => books.numbers.get(of ?? ksn);

/** The host tells how much it keeps: so it is known whether it keeps the frame at which it stopped. */
function hostRestarted(books, { resolved }) {
  for (const it of books.kept.splice(0)) books.forgotten.add(it);
  if (!resolved) return;
  const { frame, isKept } = resolved;
  const purchase = purchaseOf(books, frame);
  purchase.host = purchase.before;
  if (!isKept) return;
  if (frame.of) undo(purchase, purchase.before === "approved");
  // What was decided shows as soon as the request comes again.
  else purchase.host = books.isJournal ? "unknown" : "undecided";
}

/** Takes what the host keeps of purchases in doubt from the books behind its restart. */
export function settle(books, later) {
  for (const purchase of books.purchases) {
    if (purchase.host === "unknown") purchase.host = later.numbers.get(purchase.ksn).host;
  }
}

const sum = (purchases) => purchases.reduce((total, it) => total + it.amount, 0);

/** Both totals: what terminals were told as approved, and what stands at the host. */
export function totalsOf({ purchases }) {
  return { till: sum(purchases.filter((it) => it.isTold)),
    host: sum(purchases.filter((it) => it.host === "approved")) };
}

/** The purchase of a till whose outcome it does not know. */
export const openPurchase = openAt;

/** Of a till: whether it is at rest, and what stands and was told under its numbers. */
export function restOf(books, end, isStopped) {
  const own = books.purchases.filter((it) => it.end === end);
  const open = openAt(books, end);
  return { end, open, isStopped, isAtRest: !isStopped && !open,
    standing: own.filter((it) => it.host === "approved"), told: own.filter((it) => it.isTold) };
}
