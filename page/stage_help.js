// What settles a purchase that is not settled yet: each part of the stage says it in the same words.
import { isStopped, underWay } from "./stage_scene.js";

// The reason of a refusal for want of room, and what the host has to be up for.
const NO_ROOM = "6", ASKS_HOST = /^(?:deliver its re(?:quest|versal),|reverse it)/;
const REPLIES = ["accepted", "repeated", "judged undone"];
const isReplyTo = ({ kind, says }, ksn) =>
  kind === "answer" && says.ksn === ksn && REPLIES.includes(says.kind);

/** What settles a purchase whose outcome its terminal does not know; a sentence without its end. */
export function helpFor(books, purchase) {
  if (!books.isJournal) return overLog(books, purchase);
  const help = overJournal(books.scene, purchase);
  const needsHost = isStopped(books.scene, "host") && ASKS_HOST.test(help);
  return needsHost ? `restart the host, and then ${help}` : help;
}

function overJournal(scene, { ksn, end }) {
  if (isStopped(scene, end)) return `${end} is stopped: its restart tells what its book keeps`;
  const pending = scene.pending.get(end);
  const reply = underWay(scene).find((it) => isReplyTo(it, pending));
  if (pending === ksn) {
    return `deliver ${reply ? "its reply" : "its request, and then the reply"}, or reverse it`;
  }
  const isReversed = scene.requests.some((it) => it.ksn === pending && it.of === ksn);
  if (isReversed && reply) return "deliver the answer to its reversal";
  if (hasNoRoom(scene, ksn)) return "the journal is full and takes no reversal: nothing settles it here";
  return isReversed ? "deliver its reversal, and then the answer" : "reverse it";
}

/** Whether a reversal of this number was refused for want of room: records are never given back. */
const hasNoRoom = ({ answers, requests }, ksn) => answers.some(({ says }) =>
  says.kind === "judged refused" && says.reason === NO_ROOM
  && requests.some((it) => it.ksn === says.ksn && it.of === ksn));

function overLog({ scene, forgotten }, { till, ksn }) {
  if (till === "given up") return "nothing settles it over a log; begun anew, it is paid twice";
  if (underWay(scene).some((it) => isReplyTo(it, ksn))) return "deliver its reply";
  const isForgotten = forgotten.has(ksn) || isStopped(scene, "host");
  if (isForgotten) return "the host forgot its reply, and nothing settles it";
  return "deliver its request again, and the host gives the same reply";
}

/** What is known of an open purchase: what the host did, and where its answer is. */
export function knownOf({ scene }, { ksn, end, host }) {
  if (host === "unknown") return "The host is stopped";
  if (host === "nothing") return "The host keeps nothing of it";
  const answers = scene.answers.filter((it) => isReplyTo(it, ksn) || it.says.of === ksn);
  const coming = answers.filter((it) => underWay(scene).includes(it));
  const isHere = answers.some((it) => it.arrivals.some((arrival) => arrival.end === end));
  const isAwaited = coming.some((it) => isReplyTo(it, scene.pending.get(end)));
  const where = isAwaited ? "the answer is under way" : isHere ? `${end} has not kept the answer`
    : coming.length ? `${end} does not wait for that answer any more` : "the answer did not arrive";
  return `The host ${DECIDED[host]}; ${where}`;
}

const DECIDED = { approved: "approved it", declined: "declined it", undone: "undid it",
  barred: "will never take it" };
