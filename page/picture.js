// The picture of the key tree: the path to the next number, and the frontier.
import { BITS, MOST_ONES, SPENT, heldIn, isUsable, ones, path } from "./counters.js";
import { hexCounter } from "./hexadecimal.js";

const NAMESPACE = "http://www.w3.org/2000/svg";
const LEFT = 74;
const TOP = 60;
const WIDE = 42;
const HIGH = 30;

/** A node of the picture stands in the column of its last one bit and the row of its one bits. */
const across = (place) => LEFT + WIDE * (BITS - 1 - place) + WIDE;
const down = (depth) => TOP + HIGH * depth;

function drawn(name, attributes, text) {
  const it = document.createElementNS(NAMESPACE, name);
  for (const [key, value] of Object.entries(attributes)) it.setAttribute(key, value);
  if (text !== undefined) it.textContent = text;
  return it;
}

/** The nodes that are shown: in each column the used one of the path, or the one of the frontier. */
function nodesAt(next) {
  const used = path(next - 1).filter((it) => ones(it) <= MOST_ONES);
  const nodes = used.map((counter) => ({ counter, kind: counter ? "used" : "root" }));
  for (let place = 0; place < BITS; place += 1) {
    const counter = heldIn(place, next);
    if (counter !== undefined) nodes.push({ counter, kind: counter === next ? "next" : "future" });
  }
  return nodes.map((it) => ({ ...it, ...placed(it.counter) }));
}

function placed(counter) {
  if (counter === 0) return { x: LEFT, y: down(0) };
  return { x: across(31 - Math.clz32(counter & -counter)), y: down(ones(counter)) };
}

/** The line to a node from its parent: down, across, and down again. */
function edge({ counter, kind, x, y }, ahead) {
  const parent = placed(counter & counter - 1);
  const isAhead = ahead.has(counter);
  const points = `M${parent.x} ${parent.y}V${parent.y + HIGH / 2}H${x}V${y}`;
  return drawn("path", { d: points, class: `edge ${kind}${isAhead ? " ahead" : ""}` });
}

/** The name of a node: beside one of the path, whose row is empty from there on, else below it. */
function label({ counter, kind, x, y }) {
  const name = counter ? counter.toString(16).toUpperCase() : "initial key";
  if (kind === "used" || kind === "root") {
    return drawn("text", { x: x + 10, y: y + 4, class: "beside" }, name);
  }
  return drawn("text", { x, y: y + (kind === "next" ? 19 : 16) }, name);
}

function mark(node) {
  const { counter, kind, x, y } = node;
  const group = drawn("g", { "data-counter": hexCounter(counter), "data-kind": kind, class: kind });
  // What is clicked at, and is marked by the focus: a node is small.
  group.append(drawn("rect", { x: x - 13, y: y - 11, width: 27, height: 27, class: "ground" }));
  group.append(drawn("circle", { cx: x, cy: y, r: kind === "next" ? 8 : 6 }));
  if (kind === "used" || kind === "root") {
    group.append(drawn("path", { d: `M${x - 3} ${y - 3}l6 6m0 -6l-6 6`, class: "cross" }));
  }
  group.append(label(node), drawn("title", {}, `${hexCounter(counter)}: ${WORDS[kind]}`));
  return group;
}

const WORDS = {
  root: "the initial key; the terminal does not keep it",
  used: "used, or an ancestor of a used number; erased",
  next: "the next number; its key is in a register",
  future: "a future key; it is in a register",
};

function rulers() {
  const lines = [];
  for (let place = 0; place < BITS; place += 1) {
    const x = across(place);
    lines.push(drawn("text", { x, y: 14, class: "ruler" }, BITS - place));
    lines.push(drawn("text", { x, y: 28, class: "ruler" }, place));
    lines.push(drawn("path", { d: `M${x} 46V${down(MOST_ONES) + 22}`, class: "grid" }));
  }
  for (let depth = 0; depth <= MOST_ONES; depth += 1) {
    lines.push(drawn("text", { x: 14, y: down(depth) + 4, class: "ruler" }, depth));
  }
  lines.push(drawn("text", { x: 4, y: 14, class: "ruler name" }, "register"));
  lines.push(drawn("text", { x: 4, y: 28, class: "ruler name" }, "place j"));
  lines.push(drawn("text", { x: 4, y: 44, class: "ruler name" }, "one bits"));
  return lines;
}

/** Draws the tree of a terminal whose next counter is this one, or SPENT. */
export function draw(svg, next) {
  const nodes = nodesAt(next);
  const ahead = new Set(next === SPENT || !isUsable(next) ? [] : path(next));
  const edges = nodes.filter((it) => it.counter).map((it) => edge(it, ahead));
  // The way to the next number lies above the other lines.
  edges.sort((one, other) => one.matches(".ahead") - other.matches(".ahead"));
  if (!svg.firstChild) prepare(svg);
  svg.lastChild.replaceChildren(...edges, ...nodes.map(mark));
}

/** What stays: the rulers. The nodes stand in a group of their own. */
function prepare(svg) {
  svg.setAttribute("viewBox", `0 0 ${across(0) + WIDE} ${down(MOST_ONES) + 28}`);
  const fixed = drawn("g", {});
  fixed.append(...rulers());
  svg.append(fixed, drawn("g", {}));
}
