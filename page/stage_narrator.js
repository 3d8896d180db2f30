// What the narrator of the stage says at a moment.
import { CONFIG } from "./stage_config.js";
import { EXAMPLES } from "./stage_examples.js";

/** The paragraphs of a moment: the comment of the event that happened last. */
export function saidAt({ count, events, outcomes, closing }, configFault) {
  if (configFault) return [`The configuration cannot be read, so nothing is played: ${configFault}`];
  if (outcomes.length === 0) return ["Load a terminal to begin, or choose an example."];
  if (count === 0) return ["Press Forward: each step is an event."];
  const end = count === outcomes.length ? closing.said : [];
  return [events[count - 1].said, ...end];
}

/** Why the narrator, who tells of an example, may be wrong: what is played is not the example. */
export function changeWords(events, { script, config, isJournal }) {
  if (!events.some((it) => it.said)) return "";
  const change = changeOf(EXAMPLES.find((it) => it.script === script), config, isJournal);
  return change && `${change}: what the narrator says may not fit.`;
}

function changeOf(example, config, isJournal) {
  if (!example) return "The script was changed";
  if (example.isJournal !== isJournal) return "The host keeps another store than in the example";
  return config === CONFIG ? "" : "The configuration was changed";
}
