// Key serial numbers of the stage, shortened as far as they can be told apart.

// The last six digits have the whole counter of a number.
const LEAST_DIGITS = 6;

/**
 * What shortens the numbers of the terminals that these events load. It leaves as many digits as tell
 * their initial numbers apart: two numbers with one counter are apart by these too.
 */
export function shortener(events) {
  const initial = new Set(
    events.filter((it) => it.command === "load").map((it) => it.ksn.toUpperCase()));
  const endings = (digits) => new Set([...initial].map((it) => it.slice(-digits)));
  let digits = LEAST_DIGITS;
  while (endings(digits).size < initial.size) digits += 1;
  return (ksn) => (digits < ksn.length ? `…${ksn.slice(-digits)}` : ksn);
}
