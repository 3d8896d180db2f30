// Scripts of the stage (docs/FORMATS.md): their events, and the comments above them.

const NUMBER = "(?:0|[1-9]\\d{0,9})";
const TERMINAL = "t(?:[1-9]|1[0-6])";
const END = `(?:${TERMINAL}|host)`;

// Each event by its parts. Those of tills alone stand behind the others.
const EVENTS = [
  ["load", `load (?<end>${TERMINAL}) (?<ksn>[0-9A-Fa-f]{20})`],
  ["begin", `begin (?<end>${TERMINAL}) (?<pan>\\d{12,19}) (?<pin>\\d{4,12}) (?<amount>${NUMBER})`],
  ["up", `up (?<frame>${NUMBER})`],
  ["down", `down (?<frame>${NUMBER}) (?<end>${TERMINAL})`],
  ["restart", `restart (?<end>${END})`],
  ["arm", `arm (?<end>${END})(?<book> book)? (?<passes>${NUMBER})`],
  ["reverse", `reverse (?<end>${TERMINAL})`],
].map(([command, parts]) => [command, new RegExp(`^${parts}$`)]);

// The remark with which a frame is given up: to the player it is a comment.
const LOST = /^# (request|answer) (\d+) is lost$/;
export const lostRemark = (kind, number) => `# ${kind} ${number} is lost`;

/** The event of a line, or undefined. The player judges what is no event. */
function eventOf(line, at) {
  for (const [command, pattern] of EVENTS) {
    const found = line.match(pattern);
    if (!found) continue;
    const { end = "host", frame, amount, passes, ...words } = found.groups;
    return { ...words, command, end, at, text: line, frame: Number(frame), amount: Number(amount),
      passes: Number(passes) };
  }
  return undefined;
}

const linesOf = (text) => text.split("\n").map((it) => it.replace(/\r$/, ""));

/**
 * The events of a script. `said` is the comment that stands directly above an event, `lost` the frames
 * that are given up before it. `title` is a comment that stands apart in front, `closing` what stands
 * behind the last event.
 */
export function readScript(text) {
  const events = [];
  const reading = { words: [], apart: [], lost: [] };
  let title = "";
  for (const [at, line] of linesOf(text).entries()) {
    const event = line.startsWith("#") ? undefined : eventOf(line, at);
    if (event) {
      events.push({ ...event, said: reading.words.join(" "), lost: reading.lost });
      Object.assign(reading, { words: [], apart: [], lost: [] });
    } else if (line === "") {
      if (!title && !events.length) title = reading.words.join(" ");
      else reading.apart.push(reading.words.join(" "));
      reading.words = [];
    } else {
      comment(reading, line, at);
    }
  }
  const said = [...reading.apart, reading.words.join(" ")].filter((it) => it);
  return { title, events, closing: { said, lost: reading.lost } };
}

/** Adds a comment's line to its paragraph, or to the frames that are given up. */
function comment(reading, line, at) {
  const lost = line.match(LOST);
  if (lost) reading.lost.push({ kind: lost[1], number: Number(lost[2]), at });
  else reading.words.push(line.replace(/^#\s*/, ""));
}

/** The script with a line behind so many of its events. It stands apart from what the narrator says. */
export function withLine(text, count, line) {
  const lines = linesOf(text);
  if (lines.at(-1) === "") lines.pop();
  const { events } = readScript(text);
  const before = events[count - 1];
  const place = before ? behindEvent(lines, before.at)
    : events.length ? saidFrom(lines, events[0].at) : lines.length;
  const isApart = !LOST.test(line) && (before?.said || isSaid(lines[place - 1]));
  lines.splice(place, 0, ...isApart ? ["", line] : [line]);
  return `${lines.join("\n")}\n`;
}

const isSaid = (line = "") => line.startsWith("#") && !LOST.test(line);

/** Where the comment begins that stands directly above a line. */
function saidFrom(lines, at) {
  let place = at;
  while (isSaid(lines[place - 1])) place -= 1;
  return place;
}

/** The place behind an event and behind the remarks that follow it. */
function behindEvent(lines, at) {
  let place = at + 1;
  while (LOST.test(lines[place] ?? "")) place += 1;
  return place;
}

/** The script without the event of a place, without what is said of it and the remarks behind it. */
export function withoutEvent(text, place) {
  const lines = linesOf(text);
  const { at } = readScript(text).events[place];
  const from = saidFrom(lines, at);
  const to = behindEvent(lines, at);
  const isBetween = lines[to] === "" && (from === 0 || lines[from - 1] === "");
  lines.splice(from, to - from + (isBetween ? 1 : 0));
  return lines.join("\n");
}

/** The script's text up to so many of its events. */
export function frontOf(events, count) {
  return events.slice(0, count).map((it) => `${it.text}\n`).join("");
}
