// The lines of outcomes (docs/FORMATS.md), by their parts.

const KSN = "[0-9A-F]{20}";
const AT = "(?<end>t\\d+)";

const OUTCOMES = [
  ["loaded", `${AT} loaded (?<ksn>${KSN})`],
  ["sent", `${AT} sent (?<frame>\\d+) (?<ksn>${KSN})`],
  ["reversing", `${AT} reversing (?<frame>\\d+) (?<ksn>${KSN}) of (?<of>${KSN})`],
  ["accepted", `answer (?<frame>\\d+) accepted (?<ksn>${KSN}) (?<code>\\d\\d)`],
  ["repeated", `answer (?<frame>\\d+) repeated (?<ksn>${KSN}) (?<code>\\d\\d)`],
  ["judged undone", `answer (?<frame>\\d+) undone (?<ksn>${KSN}) of (?<of>${KSN}) (?<code>\\d\\d)`],
  ["judged refused", `answer (?<frame>\\d+) refused (?<ksn>${KSN}) (?<reason>\\d)`],
  ["done", `${AT} done (?<ksn>${KSN}) (?<code>\\d\\d)`],
  ["undone", `${AT} undone (?<of>${KSN})`],
  ["refused", `${AT} refused (?<ksn>${KSN}) (?<reason>\\d)`],
  ["restarted", `${AT} (?:next (?<next>${KSN})|(?<state>spent|empty))`
    + `(?: (?<kept>open|approved|declined|undone) (?<ksn>${KSN})(?: (?<code>\\d\\d))?)?`],
  ["used", "(?<end>host) used (?<count>\\d+)"],
  ["armed", "(?<end>t\\d+|host)(?<book> book)? armed (?<passes>\\d+)"],
  ["fault", "(?<end>t\\d+|host) fault (?<fault>.+)"],
  ["elsewhere", `${AT} IKSN elsewhere`],
  ["no key set", `${AT} no key set`],
  ["no such", "no such (?<what>terminal|frame)"],
].map(([kind, parts]) => [kind, new RegExp(`^${parts}$`)]);

/** An outcome by its line. One that is not known is shown as it stands. */
export function outcomeOf(line) {
  for (const [kind, pattern] of OUTCOMES) {
    const found = line.match(pattern);
    if (!found) continue;
    const { frame, ...words } = found.groups ?? {};
    return { ...words, frame: Number(frame), kind, line };
  }
  return { kind: "other", line };
}

/** Whether a store failed at this event: its end is stopped until a restart. */
export const isStoreFault = ({ kind, fault }) => kind === "fault" && fault.startsWith("Store ");
