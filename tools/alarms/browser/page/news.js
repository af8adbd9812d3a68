// Takes what the stream tells: who the operator is, which plants there are, all rows of one, and what changed.
import {kept} from "./kept.js";
import {leaveDialog} from "./asking.js";
import {measureColumns} from "./columns.js";
import {touch} from "./draw.js";
import {t} from "./language.js";
import {bye} from "./leaving.js";
import {link} from "./link.js";
import {clearFilters, restoreLook} from "./looking.js";
import {say} from "./messages.js";
import {isUnacknowledged, readAlarm, readEvent, readRow} from "./model.js";
import {clearRows} from "./rows.js";
import {sights} from "./seen.js";
import {share} from "./sharing.js";
import {hear, silenced} from "./sound.js";
import {me, of_, plantOf, plants, screen, setPlants} from "./state.js";
import {drawTrouble} from "./trouble.js";
import {announce} from "./voice.js";
/** @typedef {import("./model.js").Plant} Plant */

// Events of a plant that are kept.
const MOST_EVENTS = 1000;

/** A stream begins: who the operator is, and which plants there are. Of the same plants nothing that is shown goes. */
function greet(/** @type {any} */ {plants: names, ...who}) {
  Object.assign(me, {key: kept("key") ?? me.key}, who);  // another window may have been let in since
  if (JSON.stringify(names) === JSON.stringify(plants.map(plant => plant.name))) return;
  const isFirst = plants.every(plant => !plant.name);
  plants.forEach(forget);
  setPlants(names);
  if (isFirst) restoreLook();
  else clearFilters();
}

function take(/** @type {any} */ news, /** @type {boolean} */ isWhole) {
  const plant = plants[news.plant];
  Object.assign(link, {heard: performance.now(), signedOut: false, refused: ""});
  if (isWhole) {
    if (news.era !== plant.era) forget(plant);
    const table = news.table.map((/** @type {any[]} */ told) => readAlarm(told, news.details)), {era, areas} = news;
    const isDetailed = Object.keys(news.details).length > 0;
    Object.assign(plant, {era, areas, table, isDetailed, rows: [], events: []});
    measureColumns();
  }
  for (const told of news.rows) {
    const row = readRow(told, plant), isFresh = isUnacknowledged(row) && plant.rows[row.n]?.stamp !== row.stamp;
    if (isFresh && !isWhole) announce(row);
    plant.rows[row.n] = row;
  }
  for (const told of news.events) plant.events.push(readEvent(told, plant));
  plant.events.splice(0, plant.events.length - MOST_EVENTS);
  plant.head = news.head;
  if (news.head.mixed) plant.mixedAt = performance.now();
  hear();
  drawTrouble();
  touch();
}

/** Another plant: nothing that was selected, seen or silenced is of it. */
function forget(/** @type {Plant} */ plant) {
  for (const id of screen.chosen) if (plantOf(id) === plant) screen.chosen.delete(id);
  for (const known of [sights, silenced]) for (const id of known.keys()) if (plantOf(id) === plant) known.delete(id);
  clearRows();
  leaveDialog(plant);
  if (plant.era) say(of_(plant, t("the plant is another one than before")), true);
}

/** @type {Record<string, (told: any) => void>} */
const TOLD = {hello: greet, present: users => Object.assign(me, {present: users}), bye,
  all: news => take(news, true), news: news => take(news, false)};

/** Takes an event. */
export function hearEvent(/** @type {string} */ kind, /** @type {any} */ told) {
  try {
    TOLD[kind](told);
  } catch (error) {
    reportError(error);  // a fault of this page, and none of the connection
  }
}

/** Takes the events that are whole in a text of the stream, and gives what is left of it. */
export function takeEvents(/** @type {string} */ text) {
  let at = 0;
  for (let end = text.indexOf("\n\n"); end >= 0; end = text.indexOf("\n\n", at)) {
    const [first, second] = text.slice(at, end).split("\n");
    const kind = first.slice("event: ".length), told = JSON.parse(second.slice("data: ".length));
    share(kind, told);
    hearEvent(kind, told);
    at = end + 2;
  }
  return text.slice(at);
}
