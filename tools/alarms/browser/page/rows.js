// The rows that are on the screen, and some beyond its ends.
import {$, childrenOf, put} from "./dom.js";
import {cellsOf, eventCells, textsOf} from "./cells.js";
import {drawColumns} from "./columns.js";
import {onScreen, room, rowHeight} from "./geometry.js";
import {drawnHeld, dropHeld, isHolding, isScrolled, scrollHeld} from "./hold.js";
import {t} from "./language.js";
import {isUnacknowledged} from "./model.js";
import {noteSeen} from "./seen.js";
import {isJournal, isLeftOut, lines, screen} from "./state.js";
/** @typedef {import("./model.js").Row} Row */
/** @typedef {import("./model.js").Event} Event */
/**
 * A line that is drawn: since when, in milliseconds, it stands at its place on the screen.
 * @typedef {{element: HTMLElement, key: string, top: number, since: number}} Drawn
 */

// Rows that are drawn beyond each end of the screen.
const SPARE = 6;
/**
 * The rows that are drawn.
 * @type {Map<number | string, Drawn>}
 */
let drawn = new Map();

/** The rows that are whole on the screen. */
export const shownRows = () => isJournal() ? [] : screen.rows.slice(...onScreen());

/** Nothing is drawn any more: the plant is another one. */
export function clearRows() {
  drawn.clear();
  dropHeld();
  screen.rows = [];
  screen.events = [];
  $("rows").replaceChildren();
}

/** Draws the heads and the rows. */
export function drawList() {
  if (drawColumns()) {
    drawn.clear();
    $("rows").replaceChildren();
  }
  drawRows();
}

/** Draws the lines on the screen, and takes note of them. */
export function drawRows() {
  const list = $("list"), height = rowHeight(), wasScrolled = isScrolled(), before = drawn;
  const most = Math.max(0, lines() * height - room()), wanted = scrollHeld();
  const top = isHolding() ? wanted : Math.min(wanted, most);
  const first = Math.max(0, Math.floor(top / height) - SPARE);
  const end = Math.ceil((top + list.clientHeight) / height) + SPARE;
  drawn = new Map();
  putLines(isJournal() ? screen.events.slice(first, end).map((event, at) => eventElement(event, first + at, before))
    : screen.rows.slice(first, end).map((row, at) => rowElement(row, first + at, before)));
  space("above", first * height);
  space("below", Math.max(0, lines() - first - drawn.size) * height + Math.max(0, top - most));
  if (Math.abs(list.scrollTop - top) >= 1) list.scrollTop = top;
  list.setAttribute("aria-rowcount", String(lines() + 1));
  put($("empty"), lines() ? "" : screen.hidden ? t("None but those that the filters hide.") : t("None."));
  $("empty").hidden = Boolean(lines());
  noteMoves(first * height - top, wasScrolled);
  drawnHeld(wasScrolled);
  noteSeen(shownRows());
}

/** Takes note of the lines that came to another place on the screen, but for those that an operator scrolled. */
function noteMoves(/** @type {number} */ first, /** @type {boolean} */ wasScrolled) {
  const now = performance.now();
  let top = first;
  for (const line of drawn.values()) {
    if (!(Math.abs(top - line.top) < 1) && !wasScrolled) line.since = now;
    line.top = top;
    top += rowHeight();
  }
}

/** For how many milliseconds a row has stood at its place on the screen. */
export function steadyFor(/** @type {number} */ id) {
  return performance.now() - (drawn.get(id)?.since ?? -Infinity);
}

// Rows that stand where they stood aren't moved, so that a click on one isn't lost.
function putLines(/** @type {HTMLElement[]} */ wanted) {
  const body = $("rows"), there = new Set(wanted);
  for (const element of childrenOf(body)) if (!there.has(element)) element.remove();
  wanted.forEach((element, at) => {
    if (body.children[at] !== element) body.insertBefore(element, body.children[at] ?? null);
  });
}

function space(/** @type {string} */ id, /** @type {number} */ height) {
  const cell = /** @type {HTMLElement} */ ($(id).querySelector("td"));
  cell.style.height = `${height}px`;
}

/**
 * The element of a key, as it was drawn or a new one.
 * @param {number | string} key
 * @param {Map<number | string, Drawn>} before
 */
function lineOf(key, before) {
  const line = before.get(key) ?? {element: document.createElement("tr"), key: "", top: NaN, since: -Infinity};
  line.element.setAttribute("role", "row");
  drawn.set(key, line);
  return line;
}

/**
 * The element of a row at a place.
 * @param {Row} row
 * @param {number} place
 * @param {Map<number | string, Drawn>} before
 */
function rowElement(row, place, before) {
  const isChosen = screen.chosen.has(row.id), isCursor = place === screen.cursor, line = lineOf(row.id, before);
  const {element} = line, cells = cellsOf(row, isChosen);
  const key = cells.map(one => one.textContent).join("\n") + row.priority;
  if (key !== line.key) element.replaceChildren(...cells);
  line.key = key;
  const kinds = {unacknowledged: isUnacknowledged(row), quiet: !row.active || row.flags, old: isLeftOut(row),
    chosen: isChosen, cursor: isCursor};
  element.className = Object.entries(kinds).filter(([, has]) => has).map(([kind]) => kind).join(" ");
  element.id = `row-${row.id}`;
  element.dataset.n = String(row.id);
  element.setAttribute("aria-selected", String(isChosen));
  element.setAttribute("aria-rowindex", String(place + 2));
  if (isCursor) $("list").setAttribute("aria-activedescendant", element.id);
  return element;
}

/**
 * The element of an event at a place.
 * @param {Event} event
 * @param {number} place
 * @param {Map<number | string, Drawn>} before
 */
function eventElement(event, place, before) {
  const line = lineOf(`${event.plant.place} ${event.number} ${event.alarm} ${event.word}`, before);
  const texts = textsOf(event), key = JSON.stringify(texts);
  if (key !== line.key) line.element.replaceChildren(...eventCells(texts));
  line.key = key;
  line.element.className = place === screen.cursor ? "cursor" : "";
  return line.element;
}
