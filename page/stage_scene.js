// The scene of the stage: what is seen of the first events of a script and of their outcomes.
import { isStoreFault } from "./stage_outcomes.js";
import { shortener } from "./stage_numbers.js";
import { Stores, isWritten } from "./stage_stores.js";

/** The ends that a script names, of so many terminals: `t1` is always there, and the host is last. */
export function endsOf(events, terminals) {
  const named = new Set(events.map((it) => it.end));
  const all = Array.from({ length: terminals || 1 }, (_, at) => `t${at + 1}`);
  return [...all.filter((it) => it === "t1" || named.has(it)), "host"];
}

/**
 * The scene behind the last of these outcomes: a row for each event, the requests and answers with the
 * rows in which they were sent and arrived, from when to when each end was stopped, and the number
 * whose reply each terminal waits for. `lost` has the frames that are given up behind the last row;
 * `strays` are those of these that were never sent. `short` shortens a number.
 */
export function sceneOf(events, outcomes, facts, lost = []) {
  const scene = {
    facts, rows: [], requests: [], answers: [], stops: [], entries: new Set(), doubt: undefined,
    strays: [], pending: new Map(), short: shortener(events), ends: endsOf(events, facts.terminals),
    stores: new Stores(facts),
  };
  for (const [at, outcome] of outcomes.entries()) addRow(scene, events[at], outcome, at);
  for (const it of lost) giveUp(scene, it, scene.rows.length);
  return scene;
}

function addRow(scene, event, outcome, at) {
  const row = { at, event, outcome, end: event.end };
  for (const it of event.lost) giveUp(scene, it, at);
  row.arrived = arrival(scene, event, outcome, at);
  const isNewEntry = outcome.kind === "accepted"
    || outcome.kind === "judged undone" && !scene.entries.has(outcome.ksn);
  row.writes = scene.stores.writes(event, isWritten(outcome), isStoreFault(outcome), isNewEntry);
  row.sent = sending(scene, event, outcome, at);
  follow(scene, row);
  scene.rows.push(row);
}

/** The frames of a kind: "request" or "answer". */
export const framesOf = (scene, kind) => (kind === "request" ? scene.requests : scene.answers);

function giveUp(scene, it, at) {
  const frame = framesOf(scene, it.kind)[it.number - 1];
  if (frame) frame.lost ??= at;
  else scene.strays.push(it);
}

/** The frame that this event delivers. */
function arrival(scene, { command, frame: number, end }, { kind, what }, at) {
  const list = { up: scene.requests, down: scene.answers }[command];
  const frame = kind !== "no such" && list?.[number - 1];
  if (!frame) return undefined;
  const isAgain = frame.arrivals.length > 0;
  const isLate = !isAgain && list.some(
    (it) => it.number > number && it.terminal === frame.terminal && it.arrivals.length);
  frame.arrivals.push({ row: at, end, isAgain, isLate });
  return { frame, isAgain, isLate };
}

/** The frame that is sent at this event. */
function sending(scene, event, outcome, at) {
  const { kind, frame: number, ksn, of } = outcome;
  const front = { number, ksn, of, sent: at, arrivals: [] };
  if (kind === "sent" || kind === "reversing") {
    scene.requests[number - 1] = { ...front, kind: "request", terminal: event.end,
      amount: event.amount, isReversal: kind === "reversing" };
    return scene.requests[number - 1];
  }
  if (!ANSWERS.has(kind)) return undefined;
  const request = scene.requests[event.frame - 1];
  scene.answers[number - 1] = { ...front, kind: "answer", terminal: request.terminal, says: outcome,
    isReversal: request.isReversal, left: scene.facts.room - scene.entries.size };
  return scene.answers[number - 1];
}

const ANSWERS = new Set(["accepted", "repeated", "judged undone", "judged refused"]);

/** What an event changes of the ends: which are stopped, which stores are armed, what is used. */
function follow(scene, row) {
  const { at, event, outcome } = row;
  const { kind, end, ksn } = outcome;
  if (kind === "armed") scene.stores.arm(event);
  if (kind === "restarted" || kind === "used") {
    scene.stores.restart(end);
    const stop = scene.stops.find((it) => it.end === end && it.until === undefined);
    if (stop) stop.until = at;
  }
  if (isStoreFault(outcome) && !isStopped(scene, end)) scene.stops.push({ end, from: at });
  if (isStoreFault(outcome) && end === "host") scene.doubt = row.arrived?.frame;
  if (kind === "used") row.resolved = resolved(scene, outcome);
  if (kind === "accepted" || kind === "judged undone") scene.entries.add(ksn);
  if (kind === "sent" || kind === "reversing") scene.pending.set(end, ksn);
  if (ENDS_PENDING.has(kind) || isStoreFault(outcome)) scene.pending.delete(end);
}

// Behind these a terminal waits for no reply, and its memory has no key any more.
const ENDS_PENDING = new Set(["done", "undone", "loaded", "restarted"]);

/** The frame of which it was not known whether the host's store keeps it, and whether it does. */
function resolved(scene, { count }) {
  const { doubt: frame, entries } = scene;
  scene.doubt = undefined;
  const isKept = frame !== undefined && Number(count) > entries.size;
  if (isKept) entries.add(frame.ksn);
  return frame && { frame, isKept };
}

export const isStopped = ({ stops }, end) =>
  stops.some((it) => it.end === end && it.until === undefined);

/** The frames that may still arrive: those that were never delivered, and nobody gave up. */
export const underWay = (scene) => [...scene.requests, ...scene.answers]
  .filter((it) => !it.arrivals.length && it.lost === undefined);
