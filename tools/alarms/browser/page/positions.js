// The positions of the control room: who has each, and what the operator may there.
import {AREAS} from "./model.js";
import {areaOf, me, plants} from "./state.js";
/** @typedef {import("./model.js").Plant} Plant */
/** @typedef {import("./model.js").Row} Row */
/** @typedef {import("./state.js").Position} Position */
/** @typedef {Position["areas"]} Areas */
/** @typedef {[string, number, string]} Holder the user, empty for nobody; since when; what was said then */

/** Who has the position of a place. */
export function holderOf(/** @type {number} */ place) {
  return /** @type {Holder} */ (plants[0].head.held?.[place] ?? ["", 0, ""]);
}

export const isOwn = (/** @type {number} */ place) => me.user !== "" && holderOf(place)[0] === me.user;
/** Whether somebody has a position, and has the list open. */
export const isManned = (/** @type {number} */ place) => me.present.includes(holderOf(place)[0]);
/** The positions that the operator has. */
export const ownPositions = () => me.positions.filter((_, place) => isOwn(place));
/** Those at which nobody is. */
export const freePositions = () => me.positions.filter((_, place) => !isManned(place));

/** Whether a position's areas, all where there are none, have one of them. */
function hasArea(/** @type {Areas} */ areas, /** @type {number} */ plant, /** @type {number} */ area) {
  return !areas || areas.some(([number, one]) => number === plant && one === area);
}

/** The areas that are others', and those that sound for others alone, by their ids; as of what was told last. */
const others = {head: /** @type {object | null} */ (null), user: "", areas: new Set(), sound: new Set()};

function findOthers() {
  const own = ownPositions(), taken = me.positions.filter((_, place) => isManned(place));
  Object.assign(others, {head: plants[0].head, user: me.user, areas: new Set(), sound: new Set()});
  if (!own.length) return;
  for (const which of /** @type {("areas" | "sound")[]} */ (["areas", "sound"])) {
    for (let id = 0; id < plants.length * AREAS; id++) {
      const has = (/** @type {Position} */ one) => hasArea(one[which], Math.floor(id / AREAS), id % AREAS);
      if (!own.some(has) && taken.some(has)) others[which].add(id);
    }
  }
}

/**
 * Whether an area is the operator's: of a position that he has, or one at which nobody is. It is everybody's where
 * there are no positions, and that of who has none.
 * @param {Plant} plant
 * @param {number} area
 * @param {"areas" | "sound"} [which] those that the position has, or those that sound there
 */
export function isOwnArea(plant, area, which = "areas") {
  if (!me.positions.length) return true;
  if (others.head !== plants[0].head || others.user !== me.user) findOthers();
  return !others[which].has(areaOf(plant, area));
}

export const isOwnRow = (/** @type {Row} */ row) => isOwnArea(row.plant, row.area);

/** Whether the operator has an action at all; of an alarm where one is named. */
export function mayAsk(/** @type {string} */ word, /** @type {Row | undefined} */ row = undefined) {
  if (!me.positions.length) return me.may.includes(word);
  return ownPositions().some(one => one.may.includes(word) && (!row || hasArea(one.areas, row.plant.place, row.area)));
}

/** Of how many alarms at once the operator may ask for an action that wants a reason. */
export function mostOf(/** @type {string} */ word) {
  if (!me.positions.length) return me.most;
  return Math.max(1, ...ownPositions().filter(one => one.may.includes(word)).map(one => one.most));
}
