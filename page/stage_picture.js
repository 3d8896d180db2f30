// The picture of the stage: a sequence diagram, drawn from its scene alone.
import { laidOut } from "./stage_layout.js";
import { answerWords, wordsOf } from "./stage_words.js";

const NAMESPACE = "http://www.w3.org/2000/svg";
const HEAD = 9;
const FOOT = 22;

function drawn(name, attributes, ...parts) {
  const it = document.createElementNS(NAMESPACE, name);
  for (const [key, value] of Object.entries(attributes)) it.setAttribute(key, value);
  it.append(...parts);
  return it;
}

const text = (x, y, words, attributes = {}) => drawn("text", { x, y, ...attributes }, words);
const line = (d, name) => drawn("path", { d, class: name });

/** Draws a scene: `title` and `description` are its texts for readers of the screen. Gives the layout. */
export function drawScene(svg, scene, { title, description }) {
  const layout = laidOut(scene);
  svg.setAttribute("viewBox", `0 0 ${layout.width} ${layout.height}`);
  svg.setAttribute("width", layout.width);
  svg.setAttribute("height", layout.height);
  svg.replaceChildren(
    drawn("title", {}, title), drawn("desc", {}, description), ...grounds(scene, layout),
    ...scene.ends.flatMap((it) => lifeline(scene, layout, it)),
    ...[...scene.requests, ...scene.answers].map((it) => transit(it, layout)),
    ...scene.rows.map((it) => rowOf(it, scene, layout)), headOf(scene, layout));
  return layout;
}

/** What lies behind all: the network, and the row that is shown last. */
function grounds(scene, { network, rows, width, height }) {
  const { from, to } = network;
  const made = [
    drawn("rect", { x: from, y: 8, width: to - from, height: height - 16, class: "network" }),
    text((from + to) / 2, height - 6, "network", { class: "name", "text-anchor": "middle" }),
  ];
  const last = rows.at(-1);
  if (last) {
    const place = { x: 2, y: last.top, width: width - 4, height: last.height };
    made.unshift(drawn("rect", { ...place, class: "now" }));
  }
  return made;
}

/** The names of the columns, which stay where the rows are scrolled. */
function headOf({ ends, facts }, { columns, network: { from, to }, width, head }) {
  const group = drawn("g", { class: "head" });
  const middle = { "text-anchor": "middle" };
  group.append(drawn("rect", { x: 0, y: 0, width, height: head, class: "sheet" }),
    drawn("rect", { x: from, y: 8, width: to - from, height: head - 8, class: "network" }),
    text((from + to) / 2, 28, "network", { class: "name", ...middle }));
  for (const end of ends) {
    const below = end === "host" ? (facts.isJournal ? "journal" : "log of used numbers")
      : facts.isJournal ? "cell and book" : "cell";
    group.append(text(columns.get(end), 28, end, { class: "name", ...middle }),
      text(columns.get(end), 46, below, { class: "soft", ...middle }));
  }
  group.append(line(`M8 ${head}H${width - 8}`, "rule"));
  return group;
}

/** The line of an end's life: dotted where it is stopped. */
function lifeline({ stops }, { columns, rows, head, height }, end) {
  const x = columns.get(end);
  const made = [text(x, height - 6, end, { class: "name", "text-anchor": "middle" })];
  let from = head;
  for (const stop of stops.filter((it) => it.end === end)) {
    const cut = rows[stop.from].sending;
    const back = stop.until === undefined ? height - FOOT : rows[stop.until].arrival;
    made.push(line(`M${x} ${from}V${cut}`, "life"), line(`M${x} ${cut}V${back}`, "life stopped"));
    from = back;
  }
  return [...made, line(`M${x} ${from}V${height - FOOT}`, "life")];
}

/** The way of a frame through the network: to where it left it last, or was lost, or is now. */
function transit(frame, layout) {
  const { rows, xOf } = layout;
  const x = xOf(frame);
  const from = rows[frame.sent].sending;
  const to = endOfWay(frame, layout);
  const group = drawn("g", { class: `transit ${kindOf(frame)}` });
  group.append(line(`M${x} ${from}V${to}`, "way"), drawn("circle", { cx: x, cy: from, r: 3 }));
  if (isLost(frame)) group.append(line(`M${x - 5} ${to - 5}l10 10m0 -10l-10 10`, "cross"));
  else if (!frame.arrivals.length) group.append(drawn("circle", { cx: x, cy: to, r: 4, class: "here" }));
  return group;
}

const isLost = ({ arrivals, lost }) => !arrivals.length && lost !== undefined;

function endOfWay({ sent, arrivals, lost }, { rows, foot }) {
  if (arrivals.length) return Math.max(...arrivals.map((it) => rows[it.row].arrival));
  if (lost === undefined) return foot;
  return lost - 1 > sent ? rows[lost - 1].sending : rows[sent].sending;
}

/** Of what kind a frame is, for its colour. */
function kindOf(frame) {
  if (frame.kind === "request") return frame.isReversal ? "reversal" : "request";
  return frame.says.kind === "judged refused" ? "refusal" : "answer";
}

function rowOf(row, scene, layout) {
  const words = wordsOf(row, scene);
  const group = drawn("g", { class: "event", "data-row": row.at + 1 });
  group.append(drawn("title", {}, `${row.event.text}: ${words.sentence}`));
  const { top, height, arrival, sending } = layout.rows[row.at];
  // The whole row can be pointed at.
  group.append(drawn("rect", { x: 0, y: top, width: layout.width, height, class: "row" }));
  group.append(text(10, arrival, row.at + 1, { class: "soft" }));
  if (row.arrived) group.append(...arrow(arriving(row, layout), arrival, layout));
  if (row.sent) group.append(...arrow(leaving(row, layout, scene), sending, layout));
  group.append(...beside(row, words, layout, row.at));
  return group;
}

// Arrows

/** The arrow with which a frame reaches its end. */
function arriving({ end, arrived: { frame, isAgain, isLate } }, { columns, xOf }) {
  const more = isAgain ? " again" : isLate ? ", late" : "";
  return { frame, from: xOf(frame), to: columns.get(end), isAgain, isEntering: false,
    words: `${nameOf(frame)}${more}` };
}

/** The arrow with which a frame enters the network. */
function leaving({ end, sent: frame }, { columns, xOf }, { short }) {
  const words = frame.kind === "request"
    ? `${nameOf(frame)}, ${short(frame.ksn)}` : `${nameOf(frame)}: ${answerWords(frame)}`;
  return { frame, from: columns.get(end), to: xOf(frame), isEntering: true, words };
}

const nameOf = ({ kind, number, isReversal }) =>
  (kind === "request" ? `${isReversal ? "reversal" : "request"} ${number}` : `answer ${number}`);

/** An arrow with its words, which stand at its end: beside the network they would cross ways. */
function arrow({ frame, from, to, isAgain, isEntering, words }, y, { network }) {
  const way = Math.sign(to - from);
  const kind = kindOf(frame);
  const made = [line(`M${from} ${y}H${to - way}`, `flight ${kind}${isAgain ? " again" : ""}`),
    line(`M${to - way} ${y}l${-HEAD * way} -4v8z`, `tip ${kind}`)];
  const outer = isEntering ? from : to;
  const isLeft = outer < network.from;
  made.push(text(outer + (isLeft ? 10 : -10), y - 5, words,
    { class: "label", "text-anchor": isLeft ? "start" : "end" }));
  if (isEntering && !frame.arrivals.length) made.push(fate(frame, y, network, isLeft));
  return made;
}

/** What is said of a frame that did not arrive, on the other side of the network. */
function fate({ lost }, y, { from, to }, isLeft) {
  return text(isLeft ? to + 6 : from - 6, y + 4, lost === undefined ? "under way" : "lost",
    { class: "fate", "text-anchor": isLeft ? "start" : "end" });
}

// Beside an end

/** The note of a row, with the device steps of each write, on the outer side of its end. */
function beside({ end, writes }, { text: words, detail, tone }, { columns, rows }, at) {
  const isHost = end === "host";
  // What names a terminal that is not there stands beside the first one.
  const x = columns.get(end) ?? columns.values().next().value;
  const { top, sending } = rows[at];
  const side = { x: isHost ? x + 14 : x - 14, "text-anchor": isHost ? "start" : "end" };
  return [
    markOf(tone, x, sending),
    drawn("text", { ...side, y: top + 18, class: `said ${tone}` }, words),
    drawn("text", { ...side, y: top + 32, class: "soft" }, detail),
    ...stepsOf(writes, side.x, top + 40, isHost),
  ];
}

/** What stands on the line of a life: a restart, a power failure, or that something happened. */
function markOf(tone, x, y) {
  if (tone === "restart") return drawn("circle", { cx: x, cy: y, r: 6, class: "restarted" });
  if (tone === "power" || tone === "armed") {
    return line(`M${x + 3} ${y - 11}l-8 12h5l-3 10l9 -13h-5z`, tone === "power" ? "cut" : "coming");
  }
  return drawn("circle", { cx: x, cy: y, r: 3.5, class: "point" });
}

/** A dot for each device step of a write: one that failed is a cross, and none follows it. */
function stepsOf(writes, x, y, isHost) {
  const way = isHost ? 1 : -1;
  let at = x + 3 * way;
  const made = [];
  for (const { store, steps, failed } of isHost ? writes : [...writes].reverse()) {
    const group = drawn("g", { class: "steps", "data-store": store });
    const count = failed ?? steps;
    for (let step = 1; step <= count; step += 1) {
      const place = at + way * 7 * (isHost ? step - 1 : count - step);
      group.append(step === failed ? line(`M${place - 3} ${y - 3}l6 6m0 -6l-6 6`, "cross")
        : drawn("circle", { cx: place, cy: y, r: 2.2 }));
    }
    made.push(group);
    at += way * (7 * count + 6);
  }
  return made;
}

const RULES = "#stage-picture";

/** The picture as a file that stands alone: its own rules in it, in the colours of the light scheme. */
export function aloneFrom(svg) {
  const rules = [...document.styleSheets].flatMap((it) => [...it.cssRules]);
  const light = rules.find((it) => it.selectorText === ":root").style;
  const own = rules.filter((it) => it.selectorText?.startsWith(RULES))
    .map((it) => it.cssText.replaceAll(RULES, "svg")
      .replace(/var\((--[a-z-]+)\)/g, (_, name) => light.getPropertyValue(name).trim()));
  const copy = svg.cloneNode(true);
  for (const name of ["id", "aria-label", "style"]) copy.removeAttribute(name);
  copy.querySelector(".now")?.remove();
  copy.querySelector(".head").removeAttribute("transform");
  const ground = drawn("rect", { width: "100%", height: "100%", class: "sheet" });
  copy.querySelector("desc").after(drawn("style", {}, own.join("\n")), ground);
  return `${new XMLSerializer().serializeToString(copy)}\n`;
}
