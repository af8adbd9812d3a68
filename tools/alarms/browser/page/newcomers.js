// What came while the list holds still, and the way to it.
import {$, put} from "./dom.js";
import {rowHeight} from "./geometry.js";
import {newcomers} from "./hold.js";
import {t, w} from "./language.js";
import {screen} from "./state.js";

/** @typedef {"above" | "below"} Where */

/** @type {Record<Where, string>} */
const SAID = {above: w("▲ {count} new above, priority {priority}"),
  below: w("▼ {count} new below, priority {priority}")};
/** The first of each. */
const first = {above: -1, below: -1};

/** Says how many there are above and below the screen, and the most urgent priority of those. */
export function drawNewcomers() {
  const all = newcomers();
  for (const where of /** @type {Where[]} */ (["above", "below"])) drawOnes(where, all[where]);
}

function drawOnes(/** @type {Where} */ where, /** @type {number[]} */ found) {
  const one = $(`new-${where}`), urgent = Math.min(...found.map(place => screen.rows[place].priority));
  first[where] = found[0] ?? -1;
  one.classList.toggle("none", !found.length);
  put(one, found.length ? t(SAID[where], {count: found.length, priority: urgent}) : "");
}

function show(/** @type {Where} */ where) {
  if (first[where] >= 0) $("list").scrollTop = first[where] * rowHeight();
}

/** Leads to those above, or else to those below. */
export const showNewcomers = () => show(first.above >= 0 ? "above" : "below");

/** Listens to both. */
export function prepareNewcomers() {
  $("new-above").addEventListener("click", () => show("above"));
  $("new-below").addEventListener("click", () => show("below"));
}
