// Which rows the view has, in their order, and how many there are of each kind.
import {heldEvents, heldRows, isHolding} from "./hold.js";
import {isAnnunciated, isUnacknowledged} from "./model.js";
import {isOwnRow} from "./positions.js";
import {areSeveral, cursorRow, isJournal, lines, look, plants, screen} from "./state.js";
import {VIEWS, isLeft, isListed, isOwnEvent, order} from "./views.js";
/** @typedef {import("./model.js").Row} Row */

/** Arranges what is drawn then. */
export function arrange() {
  const cursor = cursorRow(), listed = counted();
  if (isJournal()) arrangeJournal();
  else arrangeRows(listed);
  const there = new Set(screen.rows.map(row => row.id));
  for (const id of screen.chosen) if (!there.has(id)) screen.chosen.delete(id);
  const stays = cursor && (isHolding() || screen.chosen.has(cursor.id));
  const place = stays ? screen.rows.findIndex(row => row.id === cursor.id) : -1;
  screen.cursor = Math.max(0, Math.min(place < 0 ? screen.cursor : place, lines() - 1));
}

function arrangeRows(/** @type {Row[]} */ listed) {
  screen.events = [];
  const left = listed.filter(isLeft).sort(order());
  screen.rows = heldRows(left);
  screen.others = look.area === "" ? listed.filter(row => !isOwnRow(row)).length : 0;
  screen.hidden = listed.length - left.length - screen.others;
}

/** The events of all plants, the newest first. */
function arrangeJournal() {
  const all = plants.flatMap(plant => plant.events);
  if (areSeveral()) all.sort((one, other) => one.moment - other.moment);
  screen.rows = [];
  const left = all.filter(isListed).reverse();
  screen.events = heldEvents(left);
  screen.others = look.area === "" ? all.filter(event => !isOwnEvent(event)).length : 0;
  screen.hidden = all.length - left.length - screen.others;
}

/** Counts the rows of each view, of each priority and of each plant; those of the view that is looked at. */
function counted() {
  const views = Object.entries(VIEWS), listed = /** @type {Row[]} */ ([]);
  screen.counts = Object.fromEntries(views.map(([view]) => [view, 0]));
  screen.priorities = [1, 2, 3, 4, 5].map(() => [0, 0]);
  screen.holding = {OOSRV: 0, SHLVD: 0, DSUPR: 0};
  for (const plant of plants) {
    plant.counts = [0, 0];
    for (const row of plant.rows) {
      const isMine = isOwnRow(row);
      for (const [view, [, has]] of views) {
        if (!has || !has(row)) continue;
        if (isMine) screen.counts[view]++;
        if (view === look.view) listed.push(row);
      }
      if (!isMine) continue;
      if (row.flags && row.active) screen.holding[row.shown]++;
      if (isAnnunciated(row)) for (const pair of [screen.priorities[row.priority], plant.counts]) count(row, pair);
    }
  }
  return listed;
}

/** Counts an annunciated alarm in a pair: of how many how many nobody has acknowledged. */
function count(/** @type {Row} */ row, /** @type {[number, number]} */ pair) {
  if (isUnacknowledged(row)) pair[0]++;
  pair[1]++;
}
