// The search over the numbers of a terminal, and over the keys of each, in slices of time: the page
// is drawn and answers between two of them.
import { STATUS } from "./call_table.js";
import * as calls from "./calls.js";
import { LIFE, SPENT, counterAt, counterOf, placeOf, withCounter } from "./counters.js";
import { Fault } from "./faults.js";
import { USES } from "./key_uses.js";
import { nextCounter } from "./registers.js";

const SLICE_MILLISECONDS = 28;
// A page that is hidden while it waits for a frame gets none: then it waits no longer than this.
const MOST_WAIT_MILLISECONDS = 200;

/** The first key of a number that makes what is sought, with its use and the way; or nothing. */
function originOf(sought, transactionKey) {
  for (const use of USES) {
    const key = use.keyOf(transactionKey);
    const way = sought.wayOf(key);
    if (way !== undefined) return { use, key, way };
  }
  return undefined;
}

/** The first number from this one on that a transaction has; nothing where none is left. */
function firstUsable(ksn) {
  try {
    calls.checkUsable(ksn);
    return ksn;
  } catch (fault) {
    if (!(fault instanceof Fault) || fault.number !== STATUS.NOT_USABLE) throw fault;
  }
  try {
    return calls.nextNumber(ksn);
  } catch (fault) {
    if (!(fault instanceof Fault) || fault.number !== STATUS.SPENT) throw fault;
    return undefined;
  }
}

/** The number behind so many from this one on; nothing where a terminal has none. */
export function numberBehind(from, tried) {
  const first = firstUsable(from);
  const place = first ? placeOf(counterOf(first)) + tried : LIFE + 1;
  return place > LIFE ? undefined : withCounter(first, counterAt(place));
}

/** Of each number, at most so many: what is found at it, or nothing. A terminal walks to them. */
function* attempts({ initial, from, most, sought }) {
  const first = firstUsable(from);
  let image = first && calls.registersAt(initial, first);
  for (let tried = 0; tried < most && image && nextCounter(image) !== SPENT; tried += 1) {
    const taken = calls.take(image);
    const origin = originOf(sought, taken.key);
    yield origin && { ksn: taken.ksn, ...origin };
    image = taken.image;
  }
}

/** Lets the browser answer and draw: until its next frame, or hardly at all in a hidden page. */
function pause() {
  return new Promise((done) => {
    const { port1, port2 } = new MessageChannel();
    port1.onmessage = () => {
      port1.close();
      done();
    };
    // Behind the frame, so that it is painted first.
    const goOn = () => port2.postMessage(0);
    if (document.hidden) goOn();
    else {
      requestAnimationFrame(goOn);
      setTimeout(goOn, MOST_WAIT_MILLISECONDS);
    }
  });
}

/**
 * Searches, and gives what is found, or nothing, and how many numbers were tried. Behind each slice
 * `goesOn(tried)` is asked; where it says no, the search ends with nothing.
 */
export async function search(question, goesOn) {
  let tried = 0;
  let until = performance.now() + SLICE_MILLISECONDS;
  for (const found of attempts(question)) {
    tried += 1;
    if (found) return { found, tried };
    if (performance.now() < until) continue;
    if (!goesOn(tried)) break;
    await pause();
    if (!goesOn(tried)) break;
    until = performance.now() + SLICE_MILLISECONDS;
  }
  return { tried };
}
