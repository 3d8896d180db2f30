// Fields that are hooked to the working set. A field with `data-set` is at first, but where it has
// `data-unhooked`: it shows what the set has of that name. What is typed into it changes the set, or
// unhooks the field where its value only follows from the set. `data-kind-by` names a choice of the
// kind of key that a field has: it never changes the set, since a key may be typed before its kind
// is chosen. `data-set-kind` is a choice that is made with that kind of the set.
import { element, made, say } from "./fields.js";
import {
  KINDS, bindKey, kindOfSet, nameOfKind, sourceOf, valuesOfSet,
} from "./working_set.js";

// Of each field: whether it is hooked, whether it was at first, and its button.
const hooks = new Map();
// The fields whose panels do not know their new values yet: they are told when they are shown.
const pending = new Set();
// The last key of each kind, which the page began with or which followed from another one.
const keys = {};
// Whether the set's key was typed: then no choice of a kind puts another one in its place.
let isTyped = false;
let values;
let kind;
let isServing = false;

export const isHooked = (field) => hooks.get(field)?.isHooked ?? false;

const nameOf = ({ dataset }) =>
  (dataset.kindBy ? nameOfKind(element(dataset.kindBy).value) : dataset.set);

/** Tells the panels that are shown of new values in their fields. */
export function deliver() {
  isServing = true;
  try {
    for (const field of pending) {
      if (field.closest("[hidden]")) continue;
      pending.delete(field);
      field.dispatchEvent(new Event("input", { bubbles: true }));
    }
  } finally {
    isServing = false;
  }
}

/** Puts what the set has into a hooked field; the answer is whether that is new there. */
function fill(field) {
  const { text, lacks } = values[nameOf(field)];
  const isNew = field.value !== text || field.dataset.lacks !== lacks;
  if (field.value !== text) field.value = text;
  if (lacks) field.dataset.lacks = lacks;
  else delete field.dataset.lacks;
  return isNew;
}

/** Brings the set to all hooked fields. The panel of `origin`, which was changed, is told by that. */
function serve(origin) {
  values = valuesOfSet();
  for (const [field, hook] of hooks) {
    if (hook.isHooked && fill(field) && field !== origin) pending.add(field);
  }
  deliver();
}

function mark(field) {
  const hook = hooks.get(field);
  hook.button.setAttribute("aria-pressed", hook.isHooked);
  hook.button.title = hook.isHooked
    ? "Follows the working set. Press to give it a value of its own."
    : "Has a value of its own. Press to follow the working set.";
}

function unhook(field) {
  hooks.get(field).isHooked = false;
  delete field.dataset.lacks;
  mark(field);
}

/** Hooks or unhooks a field, and tells its panel. */
function setHooked(field, isWanted) {
  if (isHooked(field) === isWanted) return;
  if (isWanted) {
    hooks.get(field).isHooked = true;
    fill(field);
    mark(field);
  } else {
    unhook(field);
  }
  pending.add(field);
  deliver();
}

/** Unhooks a field that a panel is to give a value of its own. */
export const release = (id) => setHooked(element(id), false);

/** Makes the choices of a kind of key in the panels, where all keys to choose from are hooked. */
function chooseKind() {
  for (const choice of document.querySelectorAll(`[data-set-kind="${kind}"]`)) {
    const fields = [...document.getElementsByName(choice.name)].map(
      (it) => element(it.id.replace("-from-", "-")));
    if (choice.checked || !fields.every(isHooked)) continue;
    choice.checked = true;
    pending.add(choice);
  }
  for (const [field, hook] of hooks) {
    if (!hook.isHooked || !field.dataset.kindBy) continue;
    element(field.dataset.kindBy).value = kind;
    pending.add(field);
  }
}

/**
 * Another kind of key. A key that was typed stays, since it may be typed before its kind is chosen;
 * else the key is the one that follows from the last, or the last one of this kind.
 */
function changeKind() {
  for (const it of KINDS) {
    const { text, lacks } = values[nameOfKind(it)];
    if (!lacks) keys[it] = text;
  }
  kind = kindOfSet();
  if (!isTyped) element("set-key").value = keys[kind] ?? "";
  bindKey();
  chooseKind();
}

/** The key of the set is typed, there or in a panel. */
function typeKey() {
  isTyped = true;
  bindKey();
}

/** Follows a change that a user makes, before the panel of the field does. */
function changed(field) {
  if (isServing) return;
  if (field.id === "set-kind") changeKind();
  if (field.id === "set-key") typeKey();
  const isChoice = [...hooks.keys()].some((it) => it.dataset.kindBy === field.id);
  if (field.closest("#set") || isChoice) serve(field);
  else take(field);
}

/** Takes a hooked field's own new value into the set; one that only follows from it is unhooked. */
function take(field) {
  if (!isHooked(field)) return;
  const source = field.dataset.kindBy ? undefined : sourceOf(nameOf(field));
  if (!source) {
    unhook(field);
    return;
  }
  element(source).value = field.value;
  if (source === "set-key") typeKey();
  serve(field);
}

/** Takes the value that a panel gave to a field of its own. */
export const offer = (id) => take(element(id));

/** Takes a key serial number that was chosen by a click, or by a panel. */
function choose(number) {
  element("set-ksn").value = number;
  serve();
  say(`The working set has the key serial number ${number}.`);
}

/** The names of the fields that are not as they were at first. */
export function changedHooks() {
  const names = (isWanted) => [...hooks]
    .filter(([, it]) => it.isHooked === isWanted && it.begins !== isWanted).map(([it]) => it.id);
  return { unhooked: names(false), hooked: names(true) };
}

/** Unhooks and hooks these fields, and has all others as they were at first. */
export function restoreHooks({ unhooked, hooked }) {
  for (const [field, { begins }] of hooks) {
    const isNamed = (begins ? unhooked : hooked).includes(field.id);
    setHooked(field, begins !== isNamed);
  }
}

function prepareHook(field) {
  const name = field.labels[0]?.textContent ?? field.getAttribute("aria-label");
  const button = made("button", "set", {
    type: "button", class: "hook", id: `${field.id}-hook`, "aria-label": `${name}: follow the working set`,
  });
  const begins = !("unhooked" in field.dataset);
  hooks.set(field, { isHooked: begins, begins, button });
  button.addEventListener("click", () => setHooked(field, !isHooked(field)));
  field.after(button);
  mark(field);
}

/** Hooks the fields. The panels are started behind this, and find the set in their fields. */
export function startHooks() {
  kind = kindOfSet();
  for (const field of document.querySelectorAll("[data-set]")) prepareHook(field);
  serve();
  pending.clear();
  const work = element("work");
  work.addEventListener("input", ({ target }) => changed(target), { capture: true });
  work.addEventListener("click", ({ target }) => {
    const number = target.closest("[data-chooses]")?.dataset.chooses;
    if (number) choose(number);
  });
  // A panel that has found a number gives it as the detail of this event.
  document.addEventListener("set-ksn", ({ detail }) => choose(detail));
}
