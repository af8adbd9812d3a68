// What the page has: the plants as they were told, who the operator is, what is looked at and what is on the screen.
// Nothing is kept here that the servers haven't shown.
import {t} from "./language.js";
import {ALARMS, AREAS, newPlant} from "./model.js";
/** @typedef {import("./model.js").Plant} Plant */
/** @typedef {import("./model.js").Row} Row */
/** @typedef {import("./model.js").Event} Event */

/** @type {Plant[]} */
export let plants = [newPlant("", 0)];

/** Other plants than before. */
export function setPlants(/** @type {string[]} */ names) {
  plants = names.map(newPlant);
}

/**
 * A position: what it may, its areas by the plants' places, and of how many alarms at once; all areas where there are
 * none.
 * @typedef {{name: string, role: string, may: string[], most: number, areas: [number, number][] | null,
 *     sound: [number, number][] | null}} Position
 */

/**
 * Who the operator is, what the operator may without positions, and of how many alarms at once what wants a reason;
 * where there are positions also which users have the list open.
 * @type {{user: string, role: string, may: string[], most: number, key: string, positions: Position[],
 *     present: string[]}}
 */
export const me = {user: "", role: "viewer", may: [], most: 1, key: "", positions: [], present: []};

export const look = {
  view: "alarms", sort: "order", down: false, state: "", text: "",
  /** an area's id, "all", or nothing for the operator's own */
  area: /** @type {number | "" | "all"} */ (""),
  priorities: /** @type {Set<number>} */ (new Set()), plants: /** @type {Set<number>} */ (new Set()),
};

/** The rows or the events of the view in their order, and what is selected of them. */
export const screen = {
  rows: /** @type {Row[]} */ ([]),
  events: /** @type {Event[]} */ ([]),
  chosen: /** @type {Set<number>} */ (new Set()),
  anchor: /** @type {number | null} */ (null),
  cursor: 0,
  /** whether something was done of the row on which the keys stand */
  isPassed: false,
  /** @type {Record<string, number>} how many rows each view has */
  counts: {},
  /** of each priority how many nobody has acknowledged, of how many */
  priorities: /** @type {[number, number][]} */ ([]),
  /** @type {Record<string, number>} how many are suppressed while the condition holds, by the word of the state */
  holding: {},
  hidden: 0,
  /** how many rows of the view are of others' areas */
  others: 0,
};

export const isJournal = () => look.view === "journal";
/** How many lines the view has. */
export const lines = () => isJournal() ? screen.events.length : screen.rows.length;
/** The row on which the keys stand, where there is one. */
export const cursorRow = () => isJournal() ? undefined : screen.rows[screen.cursor];

export const areSeveral = () => plants.length > 1;
export const plantOf = (/** @type {number} */ id) => plants[Math.floor(id / ALARMS)];
export const rowOf = (/** @type {number} */ id) => plantOf(id).rows[id % ALARMS];
export const alarmOf = (/** @type {Row} */ row) => row.plant.table[row.n];
export const tagOf = (/** @type {number} */ id) => plantOf(id).table[id % ALARMS].tag;
/** The id of a plant's area. */
export const areaOf = (/** @type {Plant} */ plant, /** @type {number} */ area) => plant.place * AREAS + area;
export const areaName = (/** @type {Plant} */ plant, /** @type {number} */ area) =>
  plant.areas[area] || t("Area {number}", {number: area});
/** A text with the name of its plant, where there are several. */
export function of_(/** @type {Plant} */ plant, /** @type {string} */ text) {
  return areSeveral() ? `${plant.name}: ${text}` : text;
}

/** The tag of an alarm, with its plant where there are several. */
export function tagAndPlant(/** @type {number} */ id) {
  return areSeveral() ? `${tagOf(id)} (${plantOf(id).name})` : tagOf(id);
}

/** Whether a row's plant may be old while others aren't: it is asked nothing, and the others go on. */
export const isLeftOut = (/** @type {Row} */ row) => areSeveral() && row.plant.isOld;
