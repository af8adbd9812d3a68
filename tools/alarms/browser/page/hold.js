// The list holds still while somebody works on it: the rows on the screen keep their places, and others go above or
// below them. So a click is for the row at which it was aimed.
import {$} from "./dom.js";
import {touch} from "./draw.js";
import {partlyOnScreen, rowHeight} from "./geometry.js";
import {isUnacknowledged} from "./model.js";
import {look, rowOf, screen} from "./state.js";
import {order} from "./views.js";
/** @typedef {import("./model.js").Row} Row */
/** @typedef {import("./model.js").Event} Event */

// Milliseconds for which the list holds still after a key, a touch, or the pointer's leaving.
const PAUSE = 2000;

const held = {
  isOn: false, isMouse: true, worked: -PAUSE,
  /** what was looked at */
  look: "",
  /** the rows on the screen, as they were when it was arranged by them, and the place of the first */
  block: /** @type {Row[]} */ ([]), first: 0,
  /** whether the beginning of the list was on the screen, and how far it was scrolled */
  isTop: true, scrolled: 0,
  /** the lines by which the rows on the screen have moved within the list */
  shift: 0,
  /** the annunciations that were there as it began, and how many events */
  known: /** @type {Map<number, number>} */ (new Map()), events: 0,
};

/** Somebody works on the list just now. */
export function work() {
  held.worked = performance.now();
}

/** Whether the list is to hold still. */
function isHeld() {
  const isOver = held.isMouse && document.querySelector("#list:hover, #newcomers:hover");
  if (isOver) work();
  return screen.chosen.size > 0 || performance.now() - held.worked < PAUSE;
}

/** Whether what is looked at is as it was, and the list holds still; it begins and ends here. */
function holds() {
  const now = JSON.stringify({...look, priorities: [...look.priorities], plants: [...look.plants]});
  const wasOn = held.isOn, isSame = now === held.look;
  if (isScrolled()) takeBlock();
  held.look = now;
  held.isOn = isSame && isHeld();
  if (held.isOn && !wasOn) {
    held.known = new Map(screen.rows.map(row => [row.id, row.stamp]));
    held.events = screen.events.length;
  }
  if (!held.isOn && wasOn && held.isTop) $("list").scrollTop = held.scrolled = 0;
  return held.isOn;
}

/** The rows as they are drawn, of those that the view has in their order. */
export function heldRows(/** @type {Row[]} */ rows) {
  const isOn = holds(), last = held.block[held.block.length - 1];
  if (!isOn || !last) return rows;
  const still = new Set(held.block.map(row => row.id)), compare = order();
  const others = rows.filter(row => !still.has(row.id)), above = others.filter(row => compare(row, last) < 0);
  held.shift += above.length - held.first;
  held.first = above.length;
  return [...above, ...held.block.map(row => rowOf(row.id)), ...others.filter(row => compare(row, last) >= 0)];
}

/** The events as they are drawn, of those that there are with the newest first. */
export function heldEvents(/** @type {Event[]} */ events) {
  return holds() ? screen.events : events;
}

/** Takes note of the rows on the screen. */
function takeBlock() {
  const [first, end] = partlyOnScreen(), before = new Map(held.block.map(row => [row.id, row]));
  held.block = screen.rows.slice(first, end).map(row => held.isOn && before.get(row.id) || row);
  held.first = first;
  held.isTop = $("list").scrollTop < rowHeight();
  held.scrolled = $("list").scrollTop;
}

/** How far the list is to be scrolled, in pixels, so that the rows on the screen stay there. */
export function scrollHeld() {
  const wanted = Math.max(0, $("list").scrollTop + held.shift * rowHeight());
  held.shift = 0;
  return wanted;
}

/** Whether an operator scrolled since the list was last drawn. */
export const isScrolled = () => Math.abs($("list").scrollTop - held.scrolled) >= 1;
export const isHolding = () => held.isOn;

/** The list is drawn: what is on the screen now is what stays there. */
export function drawnHeld(/** @type {boolean} */ wasScrolled) {
  if (!held.isOn || wasScrolled) takeBlock();
  held.scrolled = $("list").scrollTop;
  const [first, end] = partlyOnScreen();
  if (held.isOn) for (const row of screen.rows.slice(first, end)) held.known.set(row.id, row.stamp);
}

/** Nothing that was on the screen is there any more. */
export function dropHeld() {
  held.block = [];
  held.isOn = false;
}

/** The places of annunciations that came since it began and are off the screen: above it, and below. */
export function newcomers() {
  const [first, end] = partlyOnScreen();
  const isNew = (/** @type {Row} */ row) => isUnacknowledged(row) && held.known.get(row.id) !== row.stamp;
  const places = held.isOn ? screen.rows.flatMap((row, place) => isNew(row) ? [place] : []) : [];
  return {above: places.filter(place => place < first), below: places.filter(place => place >= end)};
}

/** Listens to the pointer and to fingers. Keys are told by `work`. */
export function prepareHold() {
  const list = $("list");
  for (const kind of ["pointerdown", "pointermove", "pointerover"]) {
    document.addEventListener(kind, event => {
      held.isMouse = event instanceof PointerEvent && event.pointerType !== "touch";
      if (kind === "pointerdown" && list.contains(/** @type {Node} */ (event.target))) work();
    }, {passive: true});
  }
  for (const place of [list, $("newcomers")]) {
    place.addEventListener("pointerleave", work);
    place.addEventListener("pointerenter", touch);
  }
}
