// Images and logs: the first byte that breaks a rule (docs/FORMATS.md). Each check answers with
// words, the first and the last byte, or with nothing.
import { SPENT, counterOf, isUsable } from "./counters.js";
import { hex, hexCounter } from "./hexadecimal.js";
import { nextCounter, registerName, registersOf } from "./registers.js";

const IMAGE_LENGTHS = { 1: 350, 2: 431 };
const PAST = 350;
const MOST_PAST = 8;
export const RECORD = 16;

/** The past initial key serial numbers of an image, in their order. */
export function pastOf(image) {
  const count = image.length > PAST ? image[PAST] : 0;
  const places = Array.from({ length: count }, (_, at) => PAST + 1 + 10 * at);
  return places.map((at) => image.slice(at, at + 10));
}

/** What is wrong with an image. */
export function damageOfImage(image) {
  const wanted = IMAGE_LENGTHS[image[0]];
  if (!wanted) return ["the first byte is the version, 01 or 02", 0, 0];
  if (image.length !== wanted) {
    const last = Math.max(image.length - 1, 0);
    const words = `an image of version ${image[0]} has ${wanted} bytes, and here are ${image.length}`;
    return [words, Math.min(wanted, last), last];
  }
  if (counterOf(image.slice(1, 11))) return ["the counter of the IKSN is not zero", 8, 10];
  const next = nextCounter(image);
  if (next !== SPENT && !isUsable(next)) {
    return [`the next counter, ${hexCounter(next)}, is neither usable nor 200000`, 11, 13];
  }
  return damageOfRegisters(image) ?? damageOfPast(image);
}

function damageOfRegisters(image) {
  for (const { place, counter } of registersOf(image)) {
    const at = 14 + 16 * place;
    const isFull = image.slice(at, at + 16).some((it) => it);
    if (counter === undefined && isFull) {
      return [`${registerName(place)} has no key here, and is not all zeros`, at, at + 15];
    }
  }
  return undefined;
}

function damageOfPast(image) {
  if (image.length === PAST) return undefined;
  const count = image[PAST];
  if (count > MOST_PAST) return [`a terminal had 0 to 8 IKSNs before, and not ${count}`, PAST, PAST];
  const known = [hex(image.slice(1, 11))];
  for (const [at, iksn] of pastOf(image).entries()) {
    const range = [PAST + 1 + 10 * at, PAST + 10 + 10 * at];
    if (counterOf(iksn)) return ["the counter of a past IKSN is not zero", ...range];
    if (known.includes(hex(iksn))) {
      return ["a past IKSN stands twice, or is the present one", ...range];
    }
    known.push(hex(iksn));
  }
  const rest = PAST + 1 + 10 * count;
  const wrong = image.slice(rest).findIndex((it) => it);
  return wrong < 0 ? undefined
    : ["behind the past IKSNs stand zeros alone", rest + wrong, rest + wrong];
}

/** How many numbers a right log keeps. */
export function countInLog(log) {
  let count = 0;
  while (log[RECORD * count] === 1) count += 1;
  return count;
}

/** What is wrong with a log. */
export function damageOfLog(log) {
  if (log.length === 0 || log.length % RECORD) {
    const last = Math.max(log.length - 1, 0);
    return [`a log has whole records of 16 bytes, and here are ${log.length} bytes`,
      log.length - log.length % RECORD, last];
  }
  let firstClosed;
  for (let at = 0; at < log.length; at += RECORD) {
    const record = at / RECORD;
    if (log[at] !== 1) firstClosed ??= record;
    else if (firstClosed !== undefined) {
      return [`record ${record} is open, and record ${firstClosed} before it is closed`, at, at];
    } else {
      const wrong = log.slice(at + 11, at + RECORD).findIndex((it) => it);
      if (wrong >= 0) {
        return [`record ${record} is open, and lacks its zeros`, at + 11 + wrong, at + 11 + wrong];
      }
    }
  }
  return undefined;
}
