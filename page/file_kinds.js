// What a file is taken for by its front: an image, a log or a journal (docs/FORMATS.md).
import { hasHeader } from "./journal_header.js";

/**
 * Whether the front of a file is that of a kind. No log and no journal has the size of an image. A
 * journal begins with 01 D5, one of version 1 with 01 and a kind, and both with 01 00 until they are
 * whole.
 */
const FITS = {
  image: (it) => it[0] === 2 || it.length === 350 || it.length === 431,
  log: (it) => it[0] === 1 && !hasHeader(it) && it.slice(11, 16).every((byte) => byte === 0),
  journal: (it) => it[0] === 1 && (it[1] <= 2 || it[1] === 0xd5),
};

/** What the bytes are taken for, and a sentence where they may be something else. */
export function guessed(bytes) {
  const [first, ...others] = Object.keys(FITS).filter((kind) => FITS[kind](bytes));
  if (first === "image" || (first && others.length === 0)) return { kind: first, doubt: "" };
  const begins = first ? "a log and a journal may" : "no image, log or journal with an entry does";
  const doubt = `The file begins as ${begins}. It is read as a log: choose what it is.`;
  return { kind: "log", doubt };
}
