// Moments, spans and events in words.
import {t} from "./language.js";
import {CONSOLES, DAY, SUPPRESSED} from "./model.js";
import {areaName} from "./state.js";
import {withUnit} from "./values.js";
/** @typedef {import("./model.js").Plant} Plant */
/** @typedef {import("./model.js").Event} Event */

// A moment below this one isn't a date: such a plant's clock doesn't count from 1970.
const DATES = 1e9;

/** A plant's moment: a time of the day, with the date where it is half a day away. */
export function time(/** @type {number | null | undefined} */ moment, /** @type {Plant} */ plant) {
  if (moment === null || moment === undefined) return "";
  if (moment < DATES) return t("{count} s", {count: moment});
  const date = new Date(moment * 1000), clock = date.toLocaleTimeString("en-GB");
  if (Math.abs((plant.head.now ?? moment) - moment) < DAY / 2) return clock;
  return `${date.toLocaleDateString("en-CA").slice(5)} ${clock.slice(0, 5)}`;
}

/** Seconds as they are left: 1:02:03. */
export function span(/** @type {number} */ seconds) {
  const hours = Math.floor(seconds / 3600), two = (/** @type {number} */ number) => String(number).padStart(2, "0");
  const rest = `${two(Math.floor(seconds / 60) % 60)}:${two(seconds % 60)}`;
  if (hours >= 48) return t("{days} d {hours} h", {days: Math.floor(hours / 24), hours: hours % 24});
  return hours ? `${hours}:${rest}` : rest;
}

/** Seconds as they are given: 30 min. */
export function length(/** @type {number} */ seconds) {
  if (seconds % DAY === 0) return t("{count} d", {count: seconds / DAY});
  if (seconds % 3600 === 0) return t("{count} h", {count: seconds / 3600});
  return seconds % 60 === 0 ? t("{count} min", {count: seconds / 60}) : t("{count} s", {count: seconds});
}

const valueOf = (/** @type {Event} */ event) => withUnit(event.plant.table[event.alarm ?? -1], event.value);

/** @type {Record<string, (event: Event) => string>} */
const HAPPENINGS = {
  VAL: event => {
    const value = valueOf(event);
    if (event.after === null) return t("value {value}", {value});
    if (SUPPRESSED.has(event.after)) return t("value {value}, suppressed", {value});
    return event.after === "UNACK" ? t("came at {value}", {value}) : t("returned at {value}", {value});
  },
  ACK: () => t("acknowledged"),
  RESET: () => t("reset"),
  SHELVE: event => t("shelved for {time}", {time: length(event.value)}),
  UNSHELVE: () => t("unshelved"),
  CLOCK: () => t("its shelving ended"),
  OOS: event => event.value ? t("out of service") : t("back in service"),
  DESIGN: event => event.value ? t("suppressed by design") : t("no longer suppressed by design"),
  PRIO: event => t("given priority {priority}", {priority: event.value}),
  SETP: event => t("given setpoint {value}", {value: valueOf(event)}),
  FLOOD: event => t("{area}: a flood began", {area: areaName(event.plant, event.value)}),
  "FLOOD END": event => t("{area}: the flood ended", {area: areaName(event.plant, event.value)}),
  GAP: event => t("{count} actions aren't known: the file no longer has them", {count: event.value}),
};

/** Who asked, as far as that is known: a user of this list, or the slot of another console. */
export function asker(/** @type {Event} */ event) {
  const {user, slot} = event, isConsole = slot !== null && slot < CONSOLES;
  return user ?? (isConsole ? t("slot {slot}", {slot}) : "");
}

/** What happened, in words. */
export const happening = (/** @type {Event} */ event) => (HAPPENINGS[event.word] ?? HAPPENINGS.GAP)(event);
