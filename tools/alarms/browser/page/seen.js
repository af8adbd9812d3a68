// Which annunciation of each alarm an operator has seen: what came onto the screen just now nobody has.
import {touch} from "./draw.js";
/** @typedef {import("./model.js").Row} Row */

/**
 * The annunciation of an alarm that is on the screen, since when in milliseconds, and the one that was seen before it.
 * Off the screen `at` is none, and what was seen stands in `before`.
 * @typedef {{stamp: number, at: number | null, before: number}} Sight
 */

// Milliseconds for which an annunciation has to be on the screen: one that is selected, and one of all that is shown.
export const GLANCE = 250, READ = 1000;
/** @type {Map<number, Sight>} */
export const sights = new Map();
let reading = 0;

/** Takes note of the rows that are whole on the screen. */
export function noteSeen(/** @type {Row[]} */ rows) {
  const isLooked = document.visibilityState === "visible", now = performance.now(), shown = isLooked ? rows : [];
  const there = new Set(shown.map(row => row.id));
  for (const [id, sight] of sights) {
    if (sight.at === null || there.has(id)) continue;
    sights.set(id, {stamp: sight.stamp, at: null, before: stampSeen(id, GLANCE)});
  }
  for (const row of shown) {
    const sight = sights.get(row.id);
    if (sight && sight.at !== null && sight.stamp === row.stamp) continue;
    sights.set(row.id, {stamp: row.stamp, at: now, before: stampSeen(row.id, GLANCE)});
    clearTimeout(reading);
    reading = setTimeout(touch, READ + 20);
  }
}

/** The stamp of the annunciation that an operator has seen of an alarm for so long; 0 where there is none. */
export function stampSeen(/** @type {number} */ id, /** @type {number} */ glance) {
  const sight = sights.get(id);
  if (!sight) return 0;
  return sight.at !== null && performance.now() - sight.at >= glance ? sight.stamp : sight.before;
}

/** Whether a row is on the screen, and has been for long enough to be read. */
export function isRead(/** @type {Row} */ row) {
  const sight = sights.get(row.id);
  return Boolean(sight && sight.at !== null && sight.stamp === row.stamp && performance.now() - sight.at >= READ);
}
