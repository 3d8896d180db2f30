// What the stores keep at a moment: the proved player is asked, by restarts behind what happened.
import { booksOf, settle } from "./stage_books.js";
import { outcomeOf } from "./stage_outcomes.js";
import { sceneOf } from "./stage_scene.js";
import { readScript } from "./stage_script.js";

/**
 * What each end's stores keep, by ends: the outcome of a restart in that moment. Purchases of which it
 * was not known what the host keeps are settled. `play` gives the lines of a script, or undefined where
 * there is no room for them.
 */
export function keptNow(front, scene, books, play) {
  const doubtful = books.purchases.filter((it) => it.host === "unknown");
  const restarts = scene.ends.map((it) => `restart ${it}`);
  // A purchase that a till's book alone has sent no request.
  const again = doubtful.filter((it) => it.request).map((it) => `up ${it.request}`);
  const text = `${front}${[...restarts, ...again].join("\n")}\n`;
  const { events } = readScript(text);
  const lines = play(text);
  if (!lines) return undefined;
  const outcomes = lines.map(outcomeOf);
  const count = scene.rows.length;
  if (doubtful.length) settle(books, booksOf(laterScene(events, outcomes, count, scene.facts)));
  return new Map(scene.ends.map((end, at) => [end, outcomes[count + at]]));
}

/** The scene behind these restarts. What the host accepts only now, it did not keep before. */
function laterScene(events, outcomes, count, facts) {
  const known = outcomes.map((it, at) => (
    at >= count && it.kind === "accepted" ? { kind: "other", line: it.line } : it));
  return sceneOf(events, known, facts);
}
