// Which rows a view has, which of them the filters leave, and their order.
import {t, w} from "./language.js";
import {AREAS, BY_DESIGN, OUT_OF_SERVICE, SHELVED, WORDS} from "./model.js";
import {isAnnunciated, isChattering, isStale, isUnacknowledged} from "./model.js";
import {isOwnArea} from "./positions.js";
import {alarmOf, areSeveral, look} from "./state.js";
import {happening} from "./words.js";
/** @typedef {import("./model.js").Plant} Plant */
/** @typedef {import("./model.js").Row} Row */
/** @typedef {import("./model.js").Event} Event */
/** @typedef {number | string} Key */

/**
 * The views: what each is called, and which rows it has.
 * @type {Record<string, [string, ((row: Row) => unknown)?]>}
 */
export const VIEWS = {
  alarms: [w("Alarms"), isAnnunciated],
  shelved: [w("Shelved"), row => row.flags & SHELVED],
  design: [w("By design"), row => row.flags & BY_DESIGN],
  service: [w("Out of service"), row => row.flags & OUT_OF_SERVICE],
  chatter: [w("Chattering"), isChattering],
  stale: [w("Stale"), isStale],
  all: [w("All"), () => true],
  journal: [w("Journal")],
};

/** @type {Record<string, (row: Row) => boolean>} */
const STATES = {
  "": () => true,
  unacknowledged: isUnacknowledged,
  acknowledged: row => row.shown === "ACKED" || row.shown === "LATAK",
  standing: row => row.active,
  returned: row => ["RTNUN", "LATUN", "LATAK"].includes(row.shown),
};

/**
 * The columns: what stands over each, its class, and by what it sorts.
 * @type {Record<string, [string, string, ((row: Row) => Key)?]>}
 */
export const COLUMNS = {
  box: ["", "c-box"],
  mark: [w("P"), "c-mark", row => row.priority],
  time: [w("Time"), "c-time", row => row.since ?? -1],
  state: [w("State"), "c-state", row => t(WORDS[row.shown])],
  plant: [w("Plant"), "c-plant", row => row.plant.name],
  tag: [w("Tag"), "c-tag", row => alarmOf(row).tag],
  text: [w("Text"), "c-text", row => alarmOf(row).text],
  value: [w("Value"), "c-value number", row => row.value === null ? -Infinity : row.value / Number(alarmOf(row).scale)],
  limit: [w("Limit"), "c-limit number", row => row.limit / Number(alarmOf(row).scale)],
  area: [w("Area"), "c-area", row => row.area],
  begun: [w("Since"), "c-time", row => whyOf(row)?.[1] ?? -1],
  by: [w("By"), "c-user", row => whyOf(row)?.[2] ?? ""],
  reason: [w("Reason"), "c-reason", row => whyOf(row)?.[3] ?? ""],
  left: [w("Left"), "c-left number", row => row.deadline ?? Infinity],
  marks: [w("Marks"), "c-marks"],
};

/**
 * The flag of each view of what is suppressed.
 * @type {Record<string, number>}
 */
const FLAGS = {shelved: SHELVED, design: BY_DESIGN, service: OUT_OF_SERVICE};

/** Since when a row is suppressed as the view has it, who asked for that, and why, as far as it is known. */
export function whyOf(/** @type {Row} */ row) {
  return row.why.find(([flag]) => flag === FLAGS[look.view]);
}

/** The names of the columns that the view has. */
export function columns() {
  const out = new Set(areSeveral() ? [] : ["plant"]);
  if (look.view !== "shelved" && look.view !== "all") out.add("left");
  const isSuppressed = look.view in FLAGS;
  for (const name of isSuppressed ? ["time", "value", "limit"] : ["begun", "by", "reason"]) out.add(name);
  return Object.keys(COLUMNS).filter(name => !out.has(name));
}

const isOfPlant = (/** @type {Plant} */ plant) => !look.plants.size || look.plants.has(plant.place);

function isInArea(/** @type {Plant} */ plant, /** @type {number} */ area) {
  if (look.area === "") return isOwnArea(plant, area);
  return look.area === "all" || (plant.place === Math.floor(look.area / AREAS) && area === look.area % AREAS);
}

/** Whether the filters leave a row. */
export function isLeft(/** @type {Row} */ row) {
  const alarm = alarmOf(row), isOfPriority = !look.priorities.size || look.priorities.has(row.priority);
  return isOfPriority && isOfPlant(row.plant) && isInArea(row.plant, row.area) &&
    STATES[look.state](row) && (!look.text || `${alarm.tag} ${alarm.text}`.toLowerCase().includes(look.text));
}

/** The area of an event; none where it is of no area. */
function areaOfEvent(/** @type {Event} */ event) {
  if (event.alarm !== null) return event.plant.rows[event.alarm].area;
  return event.word.startsWith("FLOOD") ? event.value : null;
}

/** Whether an event is of the operator's areas. */
export function isOwnEvent(/** @type {Event} */ event) {
  const area = areaOfEvent(event);
  return area === null || isOwnArea(event.plant, area);
}

/** Whether the filters leave an event. */
export function isListed(/** @type {Event} */ event) {
  const {plant} = event, row = event.alarm === null ? null : plant.rows[event.alarm], area = areaOfEvent(event);
  if (!isOfPlant(plant) || (area !== null && !isInArea(plant, area))) return false;
  if (look.priorities.size && !(row && look.priorities.has(row.priority))) return false;
  const of = row ? `${alarmOf(row).tag} ${alarmOf(row).text}` : "";
  const said = `${of} ${happening(event)} ${event.user ?? ""} ${event.reason ?? ""}`;
  return said.toLowerCase().includes(look.text);
}

// The moment of an annunciation. Of one plant a later stamp has no earlier moment; stamps of two say nothing of each
// other.
const annunciatedAt = (/** @type {Row} */ row) => row.stamp ? row.since ?? -1 : -1;

/** Unacknowledged first, then by priority, then the newest. */
function inOrder(/** @type {Row} */ one, /** @type {Row} */ other) {
  return Number(isUnacknowledged(other)) - Number(isUnacknowledged(one)) || one.priority - other.priority ||
    annunciatedAt(other) - annunciatedAt(one) || one.plant.place - other.plant.place ||
    other.stamp - one.stamp || one.n - other.n;
}

/** Of one moment what came first: a plant's stamps have the order of its annunciations. */
function byStamp(/** @type {Row} */ one, /** @type {Row} */ other) {
  return one.plant.place - other.plant.place || one.stamp - other.stamp;
}

/**
 * How two rows stand to each other in the order that is chosen.
 * @returns {(one: Row, other: Row) => number}
 */
export function order() {
  const key = COLUMNS[look.sort]?.[2], sign = look.down ? -1 : 1;
  if (!key) return inOrder;
  const tied = look.sort === "time" ? byStamp : () => 0;
  return (one, other) => {
    const [first, second] = [key(one), key(other)];
    return first < second ? -sign : first > second ? sign : sign * tied(one, other) || inOrder(one, other);
  };
}
