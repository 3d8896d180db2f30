// Counters of key serial numbers: which are usable, and the place of each in a terminal's life.

export const BITS = 21;
export const MOST_ONES = 10;
/** How many usable counters there are. */
export const LIFE = 1048575;
/** What stands for the next counter where a terminal is spent. */
export const SPENT = 1 << BITS;

// WITHIN[n][k]: how many numbers of n bits have at most k one bits, as sums of binomials.
const WITHIN = [new Array(MOST_ONES + 1).fill(1)];
for (let bits = 1; bits <= BITS; bits += 1) {
  const above = WITHIN[bits - 1];
  WITHIN.push(above.map((count, ones) => count + (ones ? above[ones - 1] : 0)));
}

/** The number of one bits. */
export function ones(counter) {
  let count = 0;
  for (let rest = counter; rest; rest &= rest - 1) count += 1;
  return count;
}

export const isUsable = (counter) =>
  counter > 0 && counter < SPENT && ones(counter) <= MOST_ONES;

/** Why no transaction has a number whose counter is not usable: a sentence. */
export const whyUnusable = (counter) => (counter === 0
  ? "no transaction has this number: its counter is zero, which names the initial key"
  : `no transaction has this number: its counter has ${ones(counter)} one bits, more than ten`);

/** The place of the last one bit, 0 for the lowest. */
export const lastPlace = (counter) => 31 - Math.clz32(counter & -counter);

/** The place of a usable counter in the life of a terminal, from 1: the usable ones up to it. */
export function placeOf(counter) {
  let count = 0;
  let left = MOST_ONES;
  for (let bit = BITS - 1; bit >= 0; bit -= 1) {
    if (counter >> bit & 1) {
      count += WITHIN[bit][left];
      left -= 1;
    }
  }
  return count;
}

/** The usable counter at a place, from 1. */
export function counterAt(place) {
  let counter = 0;
  let rest = place;
  let left = MOST_ONES;
  for (let bit = BITS - 1; bit >= 0; bit -= 1) {
    if (rest >= WITHIN[bit][left]) {
      rest -= WITHIN[bit][left];
      counter |= 1 << bit;
      left -= 1;
    }
  }
  return counter;
}

/** How many usable counters a node of the key tree has at and below it. */
export const countBelow = (counter) => WITHIN[lastPlace(counter)][MOST_ONES - ones(counter)];

/** The counters from 0 to this one, each with one more of its one bits, from the highest. */
export function path(counter) {
  const found = [0];
  for (let bit = BITS - 1; bit >= 0; bit -= 1) {
    if (counter >> bit & 1) found.push(found[found.length - 1] | 1 << bit);
  }
  return found;
}

/** The counter whose key register `place` has before the counter `next` is used, or undefined. */
export function heldIn(place, next) {
  const size = 2 << place;
  const counter = Math.floor((next - 1) / size) * size + (1 << place);
  return isUsable(counter) && counter >= next ? counter : undefined;
}

/** The counter of the key serial number at a place, and a number with another counter. */
export const counterOf = (bytes, at = 0) =>
  (bytes[at + 7] & 31) << 16 | bytes[at + 8] << 8 | bytes[at + 9];
export function withCounter(ksn, counter) {
  const made = ksn.slice();
  made.set([ksn[7] & 224 | counter >> 16, counter >> 8 & 255, counter & 255], 7);
  return made;
}
