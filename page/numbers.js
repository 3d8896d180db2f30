// The key serial numbers in the records of a log or a journal: whose they are, and which stand twice.
import { SPENT, counterOf } from "./counters.js";

/**
 * The numbers of the first records, `count` of them: `length` bytes each, with the number at `place`.
 *
 * `firsts` has a record of each initial key serial number, that of its first number, in their order;
 * `owners` of each record which of these it belongs to; `numbers` each number as one that is exact:
 * its owner and its counter.
 */
export function numbersAt(bytes, { count, length, place }) {
  const view = new DataView(bytes.buffer);
  const known = new Map();
  const firsts = [];
  const owners = new Uint32Array(count);
  const numbers = new Float64Array(count);
  for (let record = 0; record < count; record += 1) {
    const at = length * record + place;
    const iksn = String.fromCharCode(view.getUint16(at), view.getUint16(at + 2),
      view.getUint16(at + 4), view.getUint16(at + 6) >> 5);
    let owner = known.get(iksn);
    if (owner === undefined) {
      owner = firsts.push(record) - 1;
      known.set(iksn, owner);
    }
    owners[record] = owner;
    numbers[record] = exact(owner, counterOf(bytes, at));
  }
  return { firsts, owners, numbers };
}

/** The number of an owner with this counter as one that is exact. */
export const exact = (owner, counter) => owner * SPENT + counter;

/** Of numbers, each with the record that reverses it, the first record of each. */
export function firstsOf(reversed) {
  const first = new Map();
  for (const [record, number] of reversed) if (!first.has(number)) first.set(number, record);
  return first;
}

/** The numbers that stand before in their list, each as often as it does. */
function repeated(numbers) {
  const sorted = numbers.slice().sort();
  return sorted.filter((it, at) => it === sorted[at - 1]);
}

/** How many of the numbers stand before in their list. */
export const repeatsIn = (numbers) => repeated(numbers).length;

/** Of the first numbers, at most so many, each that stands before: its record, and the first one. */
export function earlierOf(numbers, most) {
  const first = new Map();
  const earlier = new Map();
  for (const [record, number] of numbers.subarray(0, most).entries()) {
    if (first.has(number)) earlier.set(record, first.get(number));
    else first.set(number, record);
  }
  return earlier;
}

/**
 * The first record whose number was used before, and the first one that used it; or nothing.
 * `reversed` has the numbers that are reversed, by the records that do: these use them too.
 */
export function firstRepeat(numbers, reversed) {
  // A number that stands once, and that no record reverses, is none.
  const others = new Set([...repeated(numbers), ...reversed.values()]);
  if (others.size === 0) return undefined;
  const used = new Map();
  for (const [record, number] of numbers.entries()) {
    if (used.has(number)) return [record, used.get(number)];
    if (others.has(number)) used.set(number, record);
    const other = reversed.get(record);
    if (other !== undefined && !used.has(other)) used.set(other, record);
  }
  return undefined;
}
