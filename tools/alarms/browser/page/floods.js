// The areas in flood, and what is suppressed while its condition holds.
import {$, allOf, button, childrenOf, dialog, put, target} from "./dom.js";
import {draw} from "./draw.js";
import {t, w} from "./language.js";
import {isOwnArea} from "./positions.js";
import {areaName, areaOf, look, of_, plants, screen} from "./state.js";

/**
 * What is silent, by the word of its state.
 * @type {Record<string, string>}
 */
const SILENT = {OOSRV: w("{count} out of service"), SHLVD: w("{count} shelved"), DSUPR: w("{count} by design")};

/** The areas in flood, each with its id and what is said of it. */
function floods() {
  return plants.flatMap(plant => (plant.head.floods ?? []).flatMap(([total, flooded], area) => {
    const text = of_(plant, t("{area}: {count} in 10 min", {area: areaName(plant, area), count: total}));
    return flooded && isOwnArea(plant, area) ? [{id: areaOf(plant, area), text}] : [];
  }));
}

function floodButton(/** @type {{id: number, text: string}} */ {id, text}) {
  const one = button({textContent: text, title: `${text}. ${t("Show this area alone")}`});
  one.dataset.area = String(id);
  return one;
}

/** Draws the areas in flood. */
export function drawFloods() {
  const texts = floods(), place = $("flooded"), said = JSON.stringify(texts);
  $("floods").hidden = !texts.length;
  if (place.dataset.said === said) return;
  place.dataset.said = said;
  const focused = document.activeElement;
  for (const list of [place, $("flooded-all")]) {
    const area = focused instanceof HTMLElement && list.contains(focused) ? focused.dataset.area : undefined;
    list.replaceChildren(...texts.map(floodButton));
    if (area !== undefined) allOf(`[data-area="${area}"]`, list)[0]?.focus();
  }
  boundFloods();
}

// The list keeps its rows: of the areas in flood those stand there that a line holds whole, and the others are behind a
// button.
function boundFloods() {
  const all = childrenOf($("flooded")), more = $("more");
  const beyond = () => all.filter(one => one.offsetTop > all[0].offsetTop || one.scrollWidth > one.clientWidth + 1);
  for (const one of all) one.hidden = false;
  more.hidden = true;
  if (!beyond().length) return;
  more.hidden = false;
  put(more, t("+ {count} areas", {count: all.length}));
  const left = beyond();
  for (const one of left) one.hidden = true;
  put(more, left.length === 1 ? t("+ 1 area") : t("+ {count} areas", {count: left.length}));
}

function showFlood(/** @type {Event} */ event) {
  const area = target(event)?.dataset.area;
  if (area === undefined) return;
  look.area = Number(area);
  if (dialog("areas").open) dialog("areas").close();
  draw();
}

/** What the first view doesn't list although its condition holds: each alarm once, by the word of its state. */
export function drawHolding() {
  const {holding} = screen, total = Object.values(holding).reduce((sum, one) => sum + one, 0);
  $("holding").hidden = !total || look.view !== "alarms";
  put($("holding-all"), t("{count} suppressed while the condition holds:", {count: total}));
  for (const one of allOf("button", $("holding"))) {
    const state = one.dataset.state ?? "";
    put(one, t(SILENT[state], {count: holding[state]}));
    one.hidden = !holding[state];
  }
}

/** Listens to the areas' buttons, and to the room that they have. */
export function prepareFloods() {
  $("flooded").addEventListener("click", showFlood);
  $("flooded-all").addEventListener("click", showFlood);
  $("more").addEventListener("click", () => dialog("areas").showModal());
  window.addEventListener("resize", boundFloods);
}
