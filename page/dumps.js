// Dumps of bytes, as `hexdump -C`, `xxd`, `od -t x1` and Wireshark print them: an offset before each
// line, and behind the bytes mostly the same as characters. A line of `*` stands for repeated ones.
import { Fault } from "./faults.js";
import { bytesOf } from "./hexadecimal.js";

const LINE = /^([0-9A-Fa-f]{6,16}|[0-9A-Fa-f]{4,5}(?=:|  ))(:?)(?: +(.*))?$/;
const BYTES = /^(?:[0-9A-Fa-f]{2} ?)*$/;
const SINGLE_BYTES = /^(?:[0-9A-Fa-f]{2} +)*(?:[0-9A-Fa-f]{2})?$/;
// What `hexdump` and `od` print without an option: words of two bytes, the last one behind the other.
const WORDS = /^[0-7]{6,7}( +([0-9A-Fa-f]{4}|[0-7]{6}))*$/;
const ONE_WORD = / ([0-9A-Fa-f]{4}|[0-7]{6})( |$)/;
// The bases of offsets: `od` counts by eight where it is not told another one.
const BASES = [16, 8];
// Four digits, one blank and single bytes: an offset, or the length of a frame before its contents.
const SHORT = /^[0-9A-Fa-f]{4} [0-9A-Fa-f]{2}(?: |$)/;
// What a dump may come to: its lines may stand for more bytes than they have.
const MOST_BYTES = 1 << 26;

/** The bytes of a line of a dump as its digits: behind them it has them as characters. */
function digitsBehind(colon, rest) {
  if (colon) return rest.split("  ")[0].trim();
  return rest.trim().split(/[|>]| {3,}/)[0].trim();
}

/** The offset and the bytes of a line of a dump; none of them where it is no such line. */
function lineOf(text, base) {
  const [, offset, colon, rest = ""] = text.trimEnd().match(LINE) ?? [];
  if (offset === undefined) return {};
  const digits = digitsBehind(colon, rest);
  const form = colon ? BYTES : SINGLE_BYTES;
  if (!form.test(digits)) return {};
  return { offset: parseInt(offset, base), bytes: bytesOf(digits), isNamed: colon === ":" };
}

/** The bytes that lines which are left out repeat, up to an offset; undefined where none do. */
function repeated(last, from, to) {
  const count = to - from;
  if (!last?.length || count <= 0 || count % last.length || to > MOST_BYTES) return undefined;
  return Uint8Array.from({ length: count }, (_, at) => last[at % last.length]);
}

/**
 * The bytes of a dump, line by line; undefined where one of the lines is none of a dump. Its first
 * offset may be any where a colon tells it from data.
 */
function linesOfDump(text, base) {
  const lines = [];
  let count;
  let isRepeated = false;
  for (const line of text.split(/\r?\n/)) {
    if (line.trim() === "*") isRepeated = true;
    if (line.trim() === "" || line.trim() === "*") continue;
    const { offset, bytes, isNamed } = lineOf(line, base);
    count ??= isNamed ? offset : 0;
    const before = isRepeated ? repeated(lines.at(-1), count, offset) : new Uint8Array();
    if (!bytes || !before || offset !== count + before.length) return undefined;
    lines.push(before, bytes);
    count = offset + bytes.length;
    isRepeated = false;
  }
  return lines;
}

/**
 * Whether lines are a dump: digits may look like one line. There is a colon, or two blanks behind a
 * short offset, or an offset alone at the end.
 */
const isDump = (lines, text) =>
  lines?.some((it) => it.length)
    && (text.includes(":") || /^[0-9A-Fa-f]{4,5}  /.test(text.trim()) || lines.at(-1).length === 0);

/** Throws a Fault where the lines are words of two bytes, behind offsets. */
function refuseWords(text) {
  const lines = text.trim().split(/\r?\n/).map((it) => it.trim()).filter((it) => it !== "*");
  const isOfWords = lines.length > 1 && /^0+ /.test(lines[0]) && ONE_WORD.test(lines[0])
    && lines.every((it) => WORDS.test(it)) && !lines.at(-1).includes(" ");
  if (isOfWords) {
    throw new Fault(0, "this dump has words of two bytes, and does not tell their order: make it by"
      + " hexdump -C, xxd or od -t x1");
  }
}

/** The bytes of a text that is no dump. Where a line may have an offset, `note` is told what was done. */
function bytesOfDigits(text, note) {
  refuseWords(text);
  if (text.trim().includes("\n") && text.trim().split(/\r?\n/).every((it) => SHORT.test(it))) {
    note("The first four digits of each line are read as data, and not as an offset");
  }
  return bytesOf(text);
}

/** The bytes of a text: of a dump, or of pairs of hexadecimal digits. */
export function bytesOfText(text, note = () => {}) {
  const lines = BASES.map((it) => linesOfDump(text, it)).find((it) => isDump(it, text));
  if (!lines) return bytesOfDigits(text, note);
  const bytes = new Uint8Array(lines.reduce((sum, it) => sum + it.length, 0));
  let at = 0;
  for (const line of lines) {
    bytes.set(line, at);
    at += line.length;
  }
  return bytes;
}
