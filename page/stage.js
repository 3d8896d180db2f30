// The panel "Stage": a script of terminals, network and host, played by the proved player, as a picture
// at each moment.
import { element, made, setFault } from "./fields.js";
import { loadPlayer, play } from "./player.js";
import { LINES, adviceOf, canReverse, fillChoices, frameButtons } from "./stage_acts.js";
import { booksOf } from "./stage_books.js";
import { CONFIG, factsOf } from "./stage_config.js";
import { EXAMPLES } from "./stage_examples.js";
import { FORMS, whyNoEvent } from "./stage_forms.js";
import { openedAll } from "./stage_laws.js";
import { scrolledTo } from "./stage_layout.js";
import { changeWords, saidAt } from "./stage_narrator.js";
import { outcomeOf } from "./stage_outcomes.js";
import { aloneFrom, drawScene } from "./stage_picture.js";
import { keptNow } from "./stage_probe.js";
import { sceneOf } from "./stage_scene.js";
import { frontOf, readScript, withLine, withoutEvent } from "./stage_script.js";
import { eventTable, lawItems, purchaseTable, restWords, storeItems, thiefCards } from "./stage_tables.js";
import { wordsOf } from "./stage_words.js";

// The script that is played: its title, events and outcomes, the facts of its configuration, how many of
// its events have happened in the moment that is shown, and the scene then.
const stage = { title: "", events: [], outcomes: [], closing: undefined,
  facts: undefined, count: 0, scene: undefined };

const NOTHING = { said: [], lost: [] };

const isJournal = () => element("stage-journal").checked;
const text = (id) => element(id).value;

/** The lines of a script, or undefined where the player has no room for it. */
function played(script) {
  const { lines, fault } = play(text("stage-config"), script, isJournal());
  return fault ? undefined : lines;
}

/** Plays the script anew, and shows the moment behind so many of its events. */
function replay(count) {
  for (const it of ["stage-config", "stage-script"]) setFault(it, "");
  const script = readScript(text("stage-script"));
  const { lines, fault } = play(text("stage-config"), text("stage-script"), isJournal());
  Object.assign(stage, script, { outcomes: lines.map(outcomeOf) });
  stage.facts = { ...factsOf(text("stage-config")), isJournal: isJournal() };
  if (fault) tellFault(fault);
  tellStrays();
  fillChoices(stage.facts, isJournal());
  show(Math.min(count, stage.outcomes.length));
}

/** Tells a fault. Of a script that has one, what stands above it is played. */
function tellFault({ kind, line, words }) {
  if (kind === "config") {
    setFault("stage-config", `${words}.`);
    element("stage-config-part").open = true;
    Object.assign(stage, { events: [], closing: NOTHING });
  } else if (kind === "script") {
    const why = whyNoEvent(text("stage-script").split("\n")[line - 1], isJournal());
    setFault("stage-script", `Line ${line} is not an event: ${why}. What is above it is played.`);
    stage.events = stage.events.filter((it) => it.at < line - 1);
    stage.closing = NOTHING;
    stage.outcomes = (played(frontOf(stage.events, stage.events.length)) ?? []).map(outcomeOf);
  } else {
    setFault("stage-script", `${words}.`);
  }
}

/** Tells of remarks that lose a frame which was not sent before. */
function tellStrays() {
  const { events, outcomes, facts, closing } = stage;
  const { strays } = sceneOf(events, outcomes, facts, closing.lost);
  element("stage-script-note").textContent = strays.map(({ kind, number, at }) =>
    `Line ${at + 1}: there is no ${kind} ${number} to lose yet.`).join(" ");
}

/** Shows the moment behind so many events. */
function show(count) {
  const { events, outcomes, facts } = stage;
  stage.count = count;
  const { lost } = events[count] ?? stage.closing;
  const scene = sceneOf(events, outcomes.slice(0, count), facts, lost);
  stage.scene = scene;
  const books = booksOf(scene);
  const isPlayable = element("stage-config-fault").textContent === "";
  // Without a configuration nothing is played, and no store keeps anything.
  const kept = isPlayable ? keptNow(frontOf(events, count), scene, books, played) : undefined;
  const focused = document.activeElement?.id;
  showTime();
  showPicture(scene);
  showNow(scene, books, kept);
  showFrames(scene);
  showAdvice(books);
  restoreFocus(focused);
}

/** A button that is made anew keeps the focus; where it is gone, what is told has it. */
function restoreFocus(id) {
  if (!id?.startsWith("stage-") || document.activeElement?.id === id) return;
  (element(id) ?? element("stage-frames")).focus();
}

// Time

function showTime() {
  const { count, events, outcomes } = stage;
  const slider = element("stage-time");
  slider.max = outcomes.length;
  slider.value = count;
  slider.setAttribute("aria-valuetext", `${count} of ${outcomes.length} events`);
  element("stage-place").textContent = `${count} of ${outcomes.length}`;
  for (const it of ["stage-first", "stage-back"]) setOff(it, count === 0);
  for (const it of ["stage-forward", "stage-last"]) setOff(it, count === outcomes.length);
  element("stage-title").textContent = stage.title;
  const said = saidAt(stage, element("stage-config-fault").textContent);
  element("stage-said").replaceChildren(...said.map((it) => made("p", it)));
  const now = { script: text("stage-script"), config: text("stage-config"), isJournal: isJournal() };
  element("stage-changed").textContent = changeWords(events, now);
  element("stage-saved").textContent = "";
  element("stage-event").textContent = count ? events[count - 1].text : "";
}

/** A button that can do nothing keeps its focus, and says that it is off. */
const setOff = (id, isOff) => element(id).setAttribute("aria-disabled", isOff);

// The moment

function showPicture(scene) {
  const rows = scene.rows.map((it) => `${it.event.text}: ${wordsOf(it, scene).sentence}`);
  const title = stage.title || "Terminals, network and host";
  const layout = drawScene(element("stage-picture"), scene, { title, description: rows.join("\n") });
  const last = scene.rows.at(-1);
  element("stage-happened").textContent = last ? wordsOf(last, scene).sentence : "";
  element("stage-events").replaceChildren(eventTable(scene));
  const box = element("stage-box");
  const { top, left } = scrolledTo(layout, last?.end, box);
  element("stage-picture").style.marginBottom = `${Math.max(0, top + box.clientHeight - layout.height)}px`;
  box.scrollTo(left, top);
  element("stage-wide").hidden = layout.width <= box.clientWidth;
  holdHead();
}

/** The names of the columns stay in sight while the rows are scrolled. */
function holdHead() {
  const head = document.querySelector("#stage-picture .head");
  head.setAttribute("transform", `translate(0 ${element("stage-box").scrollTop})`);
}

function showNow(scene, books, kept) {
  element("stage-books").replaceChildren(purchaseTable(books));
  const { isRest, words } = restWords(scene, books);
  element("stage-rest").textContent = words;
  element("stage-rest").dataset.rest = isRest;
  const known = ["stage-stores", "stage-thief", "stage-laws"].map(element);
  for (const it of known) it.replaceChildren();
  if (!kept) return;
  const terminals = openedAll(scene, kept);
  const [stores, thief, laws] = known;
  stores.append(...storeItems(scene, kept));
  thief.append(...thiefCards(terminals));
  laws.append(...lawItems(scene, books, terminals));
}

function showAdvice(books) {
  element("stage-advice").textContent = adviceOf(stage.scene, books);
  setOff("stage-reverse", !canReverse(stage.scene, books));
}

function showFrames(scene) {
  const { fresh, again } = frameButtons(scene);
  element("stage-fresh").replaceChildren(...fresh);
  element("stage-none").hidden = fresh.length > 0;
  element("stage-again").replaceChildren(...again);
  element("stage-again-part").hidden = again.length === 0;
}

// Hands

/** Lets something happen in the moment that is shown; what is behind it in the script comes later. */
function happen(line) {
  if (!line) return;
  const isRemark = line.startsWith("#");
  element("stage-script").value = withLine(text("stage-script"), stage.count, line);
  replay(stage.count + (isRemark ? 0 : 1));
}

function takeBack() {
  if (stage.count === 0) return;
  element("stage-script").value = withoutEvent(text("stage-script"), stage.count - 1);
  replay(stage.count - 1);
}

function choose({ script, isJournal: needsJournal }) {
  element("stage-script").value = script;
  element(needsJournal ? "stage-journal" : "stage-log").checked = true;
  replay(0);
}

function save() {
  const file = new Blob([aloneFrom(element("stage-picture"))], { type: "image/svg+xml" });
  const link = made("a", "", { href: URL.createObjectURL(file), download: "dukpt-stage.svg" });
  link.click();
  setTimeout(() => URL.revokeObjectURL(link.href), 10000);
  element("stage-saved").textContent = `Saved as ${link.download}.`;
}

function typed({ target }) {
  if (target.id === "stage-time") show(Number(target.value));
  else if (["stage-script", "stage-config"].includes(target.id)) {
    replay(stage.count === stage.outcomes.length ? Infinity : stage.count);
  } else if (["stage-log", "stage-journal"].includes(target.id)) replay(stage.count);
  else if (target.id === "stage-terminal") showAdvice(booksOf(stage.scene));
}

const MOVES = {
  "stage-first": () => 0, "stage-back": () => stage.count - 1,
  "stage-forward": () => stage.count + 1, "stage-last": () => stage.outcomes.length,
};

function clicked({ target }) {
  const button = target.closest("button");
  const row = target.closest("[data-row]");
  if (button?.id in MOVES) {
    if (button.getAttribute("aria-disabled") !== "true") show(MOVES[button.id]());
  } else if (button?.id in LINES) {
    if (button.getAttribute("aria-disabled") !== "true") happen(LINES[button.id](stage));
  }
  else if (button?.dataset.line) happen(button.dataset.line);
  else if (row) show(Number(row.dataset.row));
}

// Start

function prepareStage() {
  element("stage-config").value = CONFIG;
  for (const [form, meaning, parts] of FORMS) {
    element("stage-forms").append(made("dt", form), made("dd", `${meaning}. ${parts}.`));
  }
  for (const it of EXAMPLES) {
    const button = made("button", it.name, { type: "button", id: `stage-example-${it.id}` });
    button.addEventListener("click", () => choose(it));
    element("stage-examples").append(button);
  }
  const panel = element("panel-stage");
  panel.addEventListener("input", typed);
  panel.addEventListener("click", clicked);
  element("stage-save").addEventListener("click", save);
  element("stage-box").addEventListener("scroll", holdHead);
  element("stage-undo").addEventListener("click", takeBack);
}

/** The player is opened when the stage is first shown: other panels do not need it. */
async function openStage() {
  try {
    await loadPlayer(element("player").textContent);
    element("stage-work").hidden = false;
    choose(EXAMPLES[0]);
  } catch (fault) {
    element("stage-failed").textContent = `The player cannot be opened: ${fault.message}`;
    throw fault;
  }
}

export function startStage() {
  prepareStage();
  const panel = element("panel-stage");
  const watch = new MutationObserver(() => {
    if (panel.hidden) return;
    watch.disconnect();
    openStage();
  });
  watch.observe(panel, { attributes: true, attributeFilter: ["hidden"] });
}
