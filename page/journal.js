// The panel "Frames and files", its journals: payments and reversals in words, and what they come to.
import { made, tableOf } from "./fields.js";
import { hex } from "./hexadecimal.js";
import {
  RECORD, entriesIn, figureOf, iksnOf, isApproved, isReversal, numbersIn,
} from "./journal_parts.js";
import { firstsOf } from "./numbers.js";

const ENTRY = ["record", "number", "amount", "code or state", "MAC of the request", "group", "note"];
const TOTAL = [
  "initial key serial number", "payments", "approved", "undone of these", "sum of what stands",
];

/** A row of cells, by the names of their classes. */
function rowOf(attributes, cells) {
  const row = made("tr", "", attributes);
  for (const [name, text] of Object.entries(cells)) row.append(made("td", text, { class: name }));
  return row;
}

function entryRow({ record, first, last, number, amount, reversed, outcome, mac }, undoing) {
  const group = first === last ? "alone" : `records ${first} to ${last}`;
  return rowOf({ "data-record": record }, {
    record, number: hex(number), amount: reversed ? `reversal of ${hex(reversed)}` : amount,
    code: outcome, mac: hex(mac), group,
    notes: undoing === undefined ? "" : `undone by record ${undoing}`,
  });
}

/**
 * Of each initial key serial number: how many payments, how many of them are approved, how many of
 * these are undone, and the sum of all others that are approved: of what stands.
 */
function totalsOf(journal, { firsts, owners }, undoing) {
  const totals = firsts.map((first) => ({ first, payments: 0, approved: 0, undone: 0, sum: 0n }));
  for (const [record, owner] of owners.entries()) {
    const total = totals[owner];
    if (!isReversal(journal, record)) total.payments += 1;
    if (!isApproved(journal, record)) continue;
    total.approved += 1;
    if (undoing(record) === undefined) total.sum += BigInt(figureOf(journal, record));
    else total.undone += 1;
  }
  return totals;
}

function totalRow(journal, { first, payments, approved, undone, sum }) {
  const iksn = hex(iksnOf(journal, first));
  return rowOf({ "data-iksn": iksn }, { number: iksn, payments, approved, undone, sum });
}

/** How many payments and reversals, in words. */
function counted(payments, reversals) {
  return reversals ? `${payments} payments and ${reversals} reversals` : `${payments} payments`;
}

/** What is shown of right records: at most so many entries, and as many sums. */
export function journalRows(journal, most) {
  const { entries, groups, count } = entriesIn(journal, most);
  const records = journal.length / RECORD;
  const { numbers, reversed, ...owned } = numbersIn(journal, count);
  const reversals = firstsOf(reversed);
  const undoing = (record) =>
    isApproved(journal, record) ? reversals.get(numbers[record]) : undefined;
  const totals = totalsOf(journal, owned, undoing);
  const sum = totals.reduce((whole, it) => whole + it.sum, 0n);
  const undone = totals.reduce((whole, it) => whole + it.undone, 0);
  const words = [
    `Journal of ${records} records: ${counted(count - reversed.size, reversed.size)} in ${groups} `
      + `groups, room for ${records - count} more.`,
    `Sum of what stands, approved and not undone: ${sum}, in the smallest unit of the currency.`,
  ];
  if (undone) words.push(`Undone payments: ${undone}.`);
  if (count > most) words.push(`The first ${most} records are shown.`);
  if (totals.length > most) words.push(`The sums of the first ${most} terminals are shown.`);
  if (count === 0) return [made("p", words.join(" "))];
  const rows = entries.map((it) => entryRow(it, undoing(it.record)));
  const sums = totals.slice(0, most).map((it) => totalRow(journal, it));
  return [made("p", words.join(" ")),
    tableOf(TOTAL, (it) => it.append(...sums), "The sums of the terminals"),
    tableOf(ENTRY, (it) => it.append(...rows), "The entries of the journal")];
}
