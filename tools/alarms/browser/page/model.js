// What the stream tells of the plants: rows, the table, events and heads, with names for their places.
import {w} from "./language.js";

/** How many alarms and areas a plant has at most: by these the ids of several plants go on. */
export const ALARMS = 16384, AREAS = 64;
/** The slots of consoles are those below. */
export const CONSOLES = 16;
/** The flags of a row. */
export const SHELVED = 1, BY_DESIGN = 2, OUT_OF_SERVICE = 4;
/** @type {Record<string, string>} */
export const WORDS = {
  NORM: w("Normal"), UNACK: w("Unack"), ACKED: w("Acked"), RTNUN: w("RTN unack"), LATUN: w("Latch unack"),
  LATAK: w("Latched"), SHLVD: w("Shelved"), DSUPR: w("By design"), OOSRV: w("Out of service"),
};
export const UNACKNOWLEDGED = new Set(["UNACK", "RTNUN", "LATUN"]);
export const SUPPRESSED = new Set(["SHLVD", "DSUPR", "OOSRV"]);
export const ANNUNCIATED = new Set([...UNACKNOWLEDGED, "ACKED", "LATAK"]);
/** Seconds of a day. */
export const DAY = 86400;

/**
 * What never changes of an alarm: what the table has, and what operators are told beside it.
 * @typedef {object} Alarm
 * @property {string} tag
 * @property {string} text
 * @property {string} unit
 * @property {string} scale a decimal number: the plant's value of one of the unit
 * @property {number} decimals
 * @property {string} cause
 * @property {string} consequence
 * @property {string} response
 * @property {number} respond seconds; 0 where none is named
 * @property {string} display the address of a page
 * @property {string} kind
 * @property {number} deadband
 * @property {number} maxShelve seconds; 0 where it can't be shelved
 * @property {boolean} latching
 */

/**
 * What changes of the whole plant.
 * @typedef {object} Head
 * @property {string} trouble why the list may be old
 * @property {number} age seconds since the server's last answer
 * @property {number} still seconds for which the plant's clock hasn't moved
 * @property {string} fault why notes aren't kept
 * @property {string[]} denied the tags of the alarms whose row the server denies
 * @property {boolean} [mixed] whether some rows or floods are newer than the others
 * @property {[string, number, string][]} [held] of each position who has it, since when, and what was said then
 * @property {number} [now] the plant's moment
 * @property {[number, number][]} [floods] of each area its annunciations in ten minutes, and whether it is in flood
 */

/**
 * @typedef {object} Plant
 * @property {string} name
 * @property {number} place
 * @property {string | null} era
 * @property {string[]} areas
 * @property {Alarm[]} table
 * @property {Row[]} rows
 * @property {Event[]} events
 * @property {[number, number]} counts how many nobody has acknowledged, of how many
 * @property {boolean} isOld
 * @property {number} mixedAt when it was told last that not all of it is of one moment
 * @property {boolean} isDetailed whether operators are told anything beside the table
 * @property {Head} head
 */

/**
 * An alarm as it is now. A moment is in seconds; `third` is that of the last annunciation but two.
 * @typedef {object} Row
 * @property {number} n
 * @property {number} priority
 * @property {number} area
 * @property {string} shown the word of its state
 * @property {number} flags
 * @property {boolean} active whether the condition holds
 * @property {number | null} since
 * @property {number | null} third
 * @property {number | null} deadline
 * @property {number} stamp that of its annunciation; 0 where there is none
 * @property {number | null} value
 * @property {number} limit
 * @property {[number, number, string, string][]} why of each flag the flag, since when, who and why
 * @property {Plant} plant
 * @property {number} id which no other plant's alarm has
 */

/**
 * A line of the journal.
 * @typedef {object} Event
 * @property {number} number
 * @property {number} moment
 * @property {number | null} alarm
 * @property {string} word
 * @property {number} value
 * @property {string | null} before none where it isn't known
 * @property {string | null} after none where it isn't known
 * @property {string | null} user
 * @property {string | null} reason
 * @property {number | null} slot which asked
 * @property {Plant} plant
 */

/**
 * A plant of which nothing is known yet.
 * @param {string} name
 * @param {number} place
 * @returns {Plant}
 */
export function newPlant(name, place) {
  const head = {trouble: w("the plant is being read"), age: 0, still: 0, fault: "", denied: []};
  return {name, place, era: null, areas: [], table: [], rows: [], events: [], counts: [0, 0], isOld: false,
    mixedAt: -Infinity, isDetailed: false, head};
}

/** The id of a plant's alarm. */
export function idOf(/** @type {Plant} */ plant, /** @type {number} */ n) {
  return plant.place * ALARMS + n;
}

/**
 * A row as it is told.
 * @param {any[]} told
 * @param {Plant} plant
 * @returns {Row}
 */
export function readRow(told, plant) {
  const [n, priority, area, shown, flags, active, since, third, deadline, stamp, value, limit, why] = told;
  return {n, priority, area, shown, flags, active: Boolean(active), since, third, deadline, stamp, value, limit, why,
    plant, id: idOf(plant, n)};
}

/**
 * An alarm of the table as it is told, with its details where there are any.
 * @param {any[]} told
 * @param {Record<string, any[]>} details by the tags
 * @returns {Alarm}
 */
export function readAlarm(told, details) {
  const [tag, plain, kind, deadband, maxShelve, latching] = told;
  const [unit, scale, decimals, text, cause, consequence, response, respond, display] = details[tag] ??
    ["", "1", 0, "", "", "", "", 0, ""];
  return {tag, text: text || plain, kind, deadband, maxShelve, latching: Boolean(latching), unit, scale, decimals,
    cause, consequence, response, respond, display};
}

/**
 * An event as it is told.
 * @param {any[]} told
 * @param {Plant} plant
 * @returns {Event}
 */
export function readEvent(told, plant) {
  const [number, moment, alarm, word, value, before, after, user, reason, slot] = told;
  return {number, moment, alarm, word, value, before, after, user, reason, slot, plant};
}

export const isUnacknowledged = (/** @type {Row} */ row) => UNACKNOWLEDGED.has(row.shown);
export const isAnnunciated = (/** @type {Row} */ row) => ANNUNCIATED.has(row.shown);

/** Whether it came three times within a minute. */
export function isChattering(/** @type {Row} */ row) {
  return row.third !== null && row.third > (row.plant.head.now ?? 0) - 60;
}

/** Whether it came a day ago or more. */
export function isStale(/** @type {Row} */ row) {
  return isAnnunciated(row) && (row.since ?? 0) <= (row.plant.head.now ?? 0) - DAY;
}
