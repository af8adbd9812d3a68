// What a screen reader is told of annunciations: at once of priorities 1 and 2, in its turn of 3 and 4.
import {$, put} from "./dom.js";
import {t} from "./language.js";
import {isOwnRow} from "./positions.js";
import {alarmOf, areaName, of_} from "./state.js";
/** @typedef {import("./model.js").Row} Row */

// Milliseconds for which annunciations are gathered, and how many of them are told one by one.
const GATHER = 1000, MOST = 3;
/** @type {Row[]} */
let fresh = [];

/** Something was annunciated. */
export function announce(/** @type {Row} */ row) {
  if (!isOwnRow(row)) return;
  if (!fresh.length) setTimeout(tell, GATHER);
  fresh.push(row);
}

function words(/** @type {Row} */ row) {
  const {tag, text} = alarmOf(row);
  return of_(row.plant, t("Priority {priority}, {tag}, {text}, {area}",
    {priority: row.priority, tag, text, area: areaName(row.plant, row.area)}));
}

function tell() {
  const rows = fresh.sort((one, other) => one.priority - other.priority);
  fresh = [];
  tellSome("voice-now", rows.filter(row => row.priority < 3));
  tellSome("voice-soon", rows.filter(row => row.priority > 2));
}

function tellSome(/** @type {string} */ id, /** @type {Row[]} */ rows) {
  if (!rows.length) return;
  const more = rows.length > MOST ? [t("{count} new alarms", {count: rows.length})] : [];
  put($(id), [...more, ...rows.slice(0, MOST).map(words)].join(". "));
}
