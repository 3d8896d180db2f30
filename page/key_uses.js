// The keys of a number, in the order in which a search tries them (ANSI X9.24-1:2009 annex A).
import * as calls from "./calls.js";

/** Each use: its name as the command `find` has it, its words, and its key of a transaction key. */
export const USES = [
  { name: "key", words: "transaction key", keyOf: (key) => key },
  { name: "pin", words: "PIN key", keyOf: calls.pinKey },
  { name: "request-mac", words: "request key (MAC)", keyOf: calls.requestKey },
  { name: "response-mac", words: "response key (MAC)", keyOf: calls.responseKey },
  { name: "request-data", words: "request key (data)", keyOf: calls.requestDataKey },
  { name: "response-data", words: "response key (data)", keyOf: calls.responseDataKey },
];
