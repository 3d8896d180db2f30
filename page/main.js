// The start of the page: the module, the panels, the tabs.
import { startCiphers } from "./ciphers.js";
import { startComponents } from "./components.js";
import { startData } from "./cipher_data.js";
import { startDerive } from "./derive.js";
import { copy, element, prepare } from "./fields.js";
import { startFiles } from "./files.js";
import { startFind } from "./find.js";
import { startFrames } from "./frames.js";
import { deliver, startHooks } from "./hooks.js";
import { startBlock } from "./key_block.js";
import { readLink, writeLink, writeLinkSoon } from "./link.js";
import { startMacs } from "./macs.js";
import { startMake } from "./make.js";
import { canRun, load, version } from "./module.js";
import { startPin } from "./pin.js";
import { startStage } from "./stage.js";
import { startTree } from "./tree.js";

const tabs = [...document.querySelectorAll("[role=tab]")];
const panelOf = (tab) => tab.id.slice("tab-".length);
const shownPanel = () => panelOf(tabs.find((it) => it.getAttribute("aria-selected") === "true"));

function select(panel) {
  for (const tab of tabs) {
    const isShown = panelOf(tab) === panel;
    tab.setAttribute("aria-selected", isShown);
    tab.tabIndex = isShown ? 0 : -1;
    element(`panel-${panelOf(tab)}`).hidden = !isShown;
  }
  deliver();
}

/** Moves among the tabs by keys (ARIA Authoring Practices, tabs). */
function moveTab(event) {
  const at = tabs.indexOf(event.target);
  const count = tabs.length;
  const places = {
    ArrowRight: (at + 1) % count, ArrowLeft: (at + count - 1) % count, Home: 0, End: count - 1,
  };
  const tab = tabs[places[event.key]];
  if (!tab) return;
  event.preventDefault();
  tab.focus();
  select(panelOf(tab));
  writeLink(shownPanel());
}

function startTabs() {
  for (const tab of tabs) {
    tab.addEventListener("keydown", moveTab);
    tab.addEventListener("click", () => {
      select(panelOf(tab));
      writeLink(shownPanel());
    });
  }
}

/** Shows what the address names. */
function followAddress() {
  select(readLink() || shownPanel());
  writeLink(shownPanel());
}

async function start() {
  if (!canRun()) {
    end();
    return;
  }
  await load(element("module").textContent);
  element("version").textContent = version();
  prepare();
  startHooks();
  for (const startPart of [startDerive, startTree, startPin, startBlock, startMacs, startFrames,
    startFiles, startMake, startFind, startCiphers, startData, startComponents,
    startStage]) startPart();
  startTabs();
  followAddress();
  addEventListener("hashchange", followAddress);
  for (const kind of ["input", "click"]) {
    element("work").addEventListener(kind, () => writeLinkSoon(shownPanel()));
  }
  element("link").addEventListener("click", () => {
    writeLink(shownPanel());
    copy(location.href);
  });
  document.addEventListener("submit", (event) => event.preventDefault());
  element("work").hidden = false;
  deliver();
  document.documentElement.dataset.state = "ready";
}

/** Shows a sentence in place of the panels: the one that is there, which names browsers, or another. */
function end(words) {
  if (words) element("unsupported").textContent = words;
  element("work").hidden = true;
  document.documentElement.dataset.state = "unsupported";
}

start().catch((fault) => {
  end(`The page could not be started: ${fault.message}`);
  throw fault;
});
