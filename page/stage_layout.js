// Where things stand in the picture of the stage: columns of the ends and the network, rows of events.

// A terminal has room for its notes on its left.
const FIRST = 222;
const APART = 206;
const ARROW = 186;
const SLOT = 16;
const LEAST_SLOTS = 4;
const BESIDE_HOST = 218;
const HEAD = 66;
const ROW = 46;
const SECOND = 30;
const FOOT = 30;

/** The columns, the rows and the place of each frame in the network. */
export function laidOut(scene) {
  const slots = slotsOf(scene);
  const terminals = scene.ends.filter((it) => it !== "host");
  const columns = new Map(terminals.map((it, at) => [it, FIRST + APART * at]));
  const from = FIRST + APART * (terminals.length - 1) + ARROW;
  const to = from + SLOT * Math.max(slots.count, LEAST_SLOTS);
  columns.set("host", to + ARROW);
  const rows = rowsOf(scene);
  const end = rows.at(-1);
  return {
    columns, rows, network: { from, to }, head: HEAD,
    width: to + ARROW + BESIDE_HOST, height: (end ? end.top + end.height : HEAD) + FOOT,
    xOf: (frame) => from + SLOT * (slots.places.get(frame) + 0.5),
    foot: (end ? end.top + end.height : HEAD) + 6,
  };
}

/** A row is higher where a frame arrives and its answer goes out. */
function rowsOf({ rows }) {
  let top = HEAD + 6;
  return rows.map(({ arrived, sent }) => {
    const height = ROW + (arrived && sent ? SECOND : 0);
    const row = { top, height, arrival: top + 22, sending: top + 22 + (arrived && sent ? SECOND : 0) };
    top += height;
    return row;
  });
}

/** The last row in which a frame is in the network: one that is under way stays there. */
function lastRow({ sent, arrivals, lost }) {
  if (arrivals.length) return Math.max(...arrivals.map((it) => it.row));
  return lost === undefined ? Infinity : Math.max(sent, lost - 1);
}

/** Frames that are in the network at one time have places of their own there. */
function slotsOf({ requests, answers }) {
  const frames = [...requests, ...answers].sort((one, other) => one.sent - other.sent);
  const busy = [];
  const places = new Map();
  for (const frame of frames) {
    const free = busy.findIndex((until) => until < frame.sent);
    const place = free === -1 ? busy.length : free;
    busy[place] = lastRow(frame);
    places.set(frame, place);
  }
  return { places, count: busy.length };
}

/**
 * Where the box of a picture scrolls to: its last row is seen, and no row is cut by the head. Across, the
 * end of that row is seen with its notes.
 */
export function scrolledTo({ columns, rows, width, height }, end, box) {
  const least = height - box.clientHeight;
  const x = columns.get(end) ?? 0;
  const left = end === "host" ? width - box.clientWidth : x - FIRST;
  if (least <= 0) return { top: 0, left };
  const row = rows.find((it) => it.top - HEAD >= least);
  return { top: row ? row.top - HEAD : least, left };
}
