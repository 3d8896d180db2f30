// What the stage takes out of a configuration beside its player: the picture's facts, and the test keys.

// A table of an array, in either way to write it: up to the next one.
const TABLE = /\[\[|\{/;

const textOf = (part, key) =>
  part.match(new RegExp(`(?:^|[\\s,])${key}\\s*=\\s*["']{1,3}([0-9A-Fa-f]+)["']`))?.[1];
const numberOf = (part, key) =>
  Number((part.match(new RegExp(`(?:^|[\\s,])${key}\\s*=\\s*\\+?(\\w+)`))?.[1] ?? "").replace(/_/g, ""));

/** How many terminals there are, how much the host's store has room for, whether stores are on disks,
 * the base derivation keys and the cards. */
export function factsOf(config) {
  const text = config.replace(/^\s*#.*$/gm, "");
  const parts = text.split(TABLE);
  const bdks = parts.map((it) => ({ prefix: textOf(it, "prefix"), key: textOf(it, "key") }));
  const cards = parts.map((it) => (
    { pan: textOf(it, "pan"), pin: textOf(it, "pin"), limit: numberOf(it, "limit") }));
  return {
    terminals: numberOf(text, "terminals"),
    room: numberOf(text, "log"),
    isOnDisk: /^\s*stores\s*=\s*["']{1,3}disk["']/m.test(text),
    bdks: bdks.filter((it) => it.prefix && it.key),
    cards: cards.filter((it) => it.pan && it.pin),
  };
}

/** The configuration with which the stage begins: that of the examples. */
export const CONFIG = `# Test keys alone.
lmk = "DD7515F2BFC17F85CE48F3CA25CB21F6"
loading = "4CF15134A2850DD58A3D10BA80570D38"
zone = "3F419E1CB7079442AA37474C2EFBF8B8"
# The terminals are t1 and t2.
terminals = 2
# How many entries the host's log or journal has room for.
log = 100
# A write to a store in memory has two device steps. On a disk ("disk") it has more; a journal is on a disk always.
stores = "memory"

[[bdk]]
prefix = "FFFF987654"
key = "0123456789ABCDEFFEDCBA9876543210"

[[card]]
pan = "4012345678909"
pin = "1234"
limit = 10000
`;
