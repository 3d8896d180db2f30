// The nodes of the key tree as buttons: each takes its number into the working set. The picture is one
// stop of the Tab key, in which the arrows move (ARIA Authoring Practices, roving tabindex).
import { withCounter } from "./counters.js";
import { hex } from "./hexadecimal.js";

// The initial key belongs to no transaction: its node is no button.
const nodesIn = (picture) => [...picture.querySelectorAll("g[data-chooses]")];

/** Gives the nodes of a picture their numbers, under this initial key serial number. */
export function nameNodes(picture, iksn) {
  for (const node of picture.querySelectorAll("g[data-counter]:not(.root)")) {
    const counter = parseInt(node.dataset.counter, 16);
    node.dataset.chooses = hex(withCounter(iksn, counter));
    node.setAttribute("role", "button");
    node.setAttribute("tabindex", node.dataset.kind === "next" ? "0" : "-1");
  }
  const nodes = nodesIn(picture);
  if (nodes.every((it) => it.tabIndex < 0)) nodes[0]?.setAttribute("tabindex", "0");
}

/** Draws a picture anew. The focus of a node goes to the one that stands for the same counter then. */
export function keepingFocus(picture, redraw) {
  const { counter } = document.activeElement.closest?.("g[data-counter]")?.dataset ?? {};
  const hadFocus = picture.contains(document.activeElement);
  redraw();
  if (hadFocus) focus(picture, nodesIn(picture).find((it) => it.dataset.counter === counter));
}

/** Moves the focus to a node, or to the one that the Tab key reaches. */
function focus(picture, node) {
  const nodes = nodesIn(picture);
  const wanted = node ?? nodes.find((it) => it.tabIndex === 0);
  for (const it of nodes) it.setAttribute("tabindex", it === wanted ? "0" : "-1");
  wanted?.focus();
}

/** Moves among the nodes by arrows, from column to column, and presses one by Enter or a space. */
function pressed(event) {
  const picture = event.currentTarget;
  const node = event.target.closest("g[data-chooses]");
  if (!node) return;
  if (event.key === "Enter" || event.key === " ") {
    event.preventDefault();
    node.dispatchEvent(new MouseEvent("click", { bubbles: true }));
    return;
  }
  const moved = neighbour(picture, node, event.key);
  if (!moved) return;
  event.preventDefault();
  focus(picture, moved);
}

/** The node that a key leads to from another one; undefined for any other key. */
function neighbour(picture, node, key) {
  const across = (it) => it.querySelector("circle").cx.baseVal.value;
  const nodes = nodesIn(picture).sort((one, other) => across(one) - across(other));
  const at = nodes.indexOf(node);
  const last = nodes.length - 1;
  const places = {
    ArrowRight: Math.min(at + 1, last), ArrowDown: Math.min(at + 1, last),
    ArrowLeft: Math.max(at - 1, 0), ArrowUp: Math.max(at - 1, 0), Home: 0, End: last,
  };
  return nodes[places[key]];
}

export function startNodes(picture) {
  picture.addEventListener("keydown", pressed);
}
