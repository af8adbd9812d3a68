// What is selected, by hand or by keys.
import {$, target} from "./dom.js";
import {draw, touch} from "./draw.js";
import {reveal} from "./geometry.js";
import {t} from "./language.js";
import {say} from "./messages.js";
import {steadyFor} from "./rows.js";
import {isJournal, screen} from "./state.js";

// Milliseconds for which a row has to have stood at its place: who aims presses within this time.
const STEADY = 1000;

/**
 * The keys that were held as something was selected.
 * @typedef {{shiftKey?: boolean, ctrlKey?: boolean, metaKey?: boolean}} Held
 */

/** Selects the row of a place: alone, with the others, or as far as it. */
export function select(/** @type {number} */ place, /** @type {Held} */ held = {}) {
  const row = screen.rows[place];
  Object.assign(screen, {cursor: place, isPassed: false});
  if (isJournal() || !row) return touch();
  if (held.shiftKey && screen.anchor !== null) {
    const from = screen.rows.findIndex(one => one.id === screen.anchor), first = from < 0 ? place : from;
    screen.chosen = new Set(screen.rows.slice(Math.min(first, place), Math.max(first, place) + 1).map(one => one.id));
  } else if (held.ctrlKey || held.metaKey) {
    toggle(row.id);
  } else {
    screen.chosen = new Set([row.id]);
    screen.anchor = row.id;
  }
  draw();
}

/** Adds an alarm to what is selected, or takes it away. */
export function toggle(/** @type {number} */ id) {
  if (!screen.chosen.delete(id)) screen.chosen.add(id);
  screen.anchor = id;
}

/** Goes to a place by a key. */
export function goTo(/** @type {number} */ place, /** @type {boolean} */ shiftKey) {
  reveal(place);
  select(place, {shiftKey});
}

/** Selects all rows of the view. */
export function selectAll() {
  screen.chosen = new Set(screen.rows.map(row => row.id));
}

/** Nothing is selected. */
export function selectNone() {
  screen.chosen.clear();
  screen.isPassed = false;
}

/** Alarms of which something was done: they are no longer selected, and the keys go on behind them. */
export function pass(/** @type {number[]} */ ids) {
  for (const id of ids) screen.chosen.delete(id);
  screen.isPassed = ids.length > 0;
}

/** Listens to clicks on rows. */
export function prepareSelection() {
  $("rows").addEventListener("click", event => {
    const id = target(event, "tr")?.dataset.n;
    if (id === undefined) return;
    if (steadyFor(Number(id)) < STEADY) return say(t("the list moved just before: look where you press"), true);
    const place = screen.rows.findIndex(row => row.id === Number(id));
    select(place, target(event)?.classList.contains("box") ? {ctrlKey: true} : event);
    $("list").focus({preventScroll: true});
  });
}
