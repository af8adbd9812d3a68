// The cells of a row and of an event.
import {made, mark} from "./dom.js";
import {t, w} from "./language.js";
import {BY_DESIGN, SHELVED, WORDS, isAnnunciated, isChattering, isStale} from "./model.js";
import {alarmOf, areSeveral, areaName, isLeftOut} from "./state.js";
import {shownValue} from "./values.js";
import {columns, whyOf} from "./views.js";
import {asker, happening, span, time} from "./words.js";
/** @typedef {import("./model.js").Row} Row */
/** @typedef {import("./model.js").Event} Event */

// What may take two lines.
const LONG = new Set(["text", "area", "reason", "tag"]);

function cell(/** @type {string} */ kind, /** @type {string | Node} */ text) {
  const one = made("td", {className: kind}), isLong = typeof text === "string" && LONG.has(kind);
  one.setAttribute("role", "gridcell");
  one.append(isLong ? made("span", {className: "two", textContent: text, title: text}) : text);
  return one;
}

function tips(/** @type {Row} */ row) {
  const all = made("span", {className: "two"}), {flags, shown, plant} = row;
  const flood = isAnnunciated(row) && plant.head.floods?.[row.area]?.[1];
  /** @type {[string, unknown][]} */
  const marks = [[w("No server"), isLeftOut(row)], [w("Flood"), flood], [w("Stale"), isStale(row)],
    [w("Chatter"), isChattering(row)], [w("Shelved"), flags & SHELVED && shown !== "SHLVD"],
    [w("By design"), flags & BY_DESIGN && shown !== "DSUPR"], [w("Holds"), flags && row.active]];
  for (const [word, has] of marks) if (has) all.append(made("span", {className: "tip", textContent: t(word)}));
  return all;
}

function left(/** @type {Row} */ row) {
  return row.deadline === null ? "" : span(Math.max(0, row.deadline - (row.plant.head.now ?? 0)));
}

function limit(/** @type {Row} */ row) {
  const alarm = alarmOf(row), all = made("span", {textContent: shownValue(alarm, row.limit)});
  if (alarm.unit) all.append(made("span", {className: "unit", textContent: ` ${alarm.unit}`}));
  return all;
}

/** @type {Record<string, (row: Row, isChosen: boolean) => HTMLElement>} */
const CELLS = {
  box: (_, isChosen) => cell("box", isChosen ? "☑" : "☐"),
  mark: row => cell("mark-cell", mark(row.priority)),
  time: row => cell("time", time(row.since, row.plant)),
  state: row => cell("state", t(WORDS[row.shown])),
  plant: row => cell("plant", row.plant.name),
  tag: row => cell("tag", alarmOf(row).tag),
  text: row => cell("text", alarmOf(row).text),
  value: row => cell("value number", row.value === null ? "" : shownValue(alarmOf(row), row.value)),
  limit: row => cell("limit number", limit(row)),
  area: row => cell("area", areaName(row.plant, row.area)),
  begun: row => cell("time", time(whyOf(row)?.[1], row.plant)),
  by: row => cell("user", whyOf(row)?.[2] ?? ""),
  reason: row => cell("reason", whyOf(row)?.[3] ?? ""),
  left: row => cell("left number", left(row)),
  marks: row => cell("marks", tips(row)),
};

/** The cells of a row, as the view has columns. */
export function cellsOf(/** @type {Row} */ row, /** @type {boolean} */ isChosen) {
  return columns().map(name => CELLS[name](row, isChosen));
}

/**
 * The classes and texts of an event's cells.
 * @returns {[string, string][]}
 */
export function textsOf(/** @type {Event} */ event) {
  const {plant, alarm} = event;
  return [["time", time(event.moment, plant)], ["number", String(event.number)],
    ...(areSeveral() ? [/** @type {[string, string]} */ (["plant", plant.name])] : []),
    ["tag", alarm === null ? "" : plant.table[alarm].tag], ["text", happening(event)],
    ["state", t(WORDS[event.after ?? ""] ?? "")], ["user", asker(event)], ["reason", event.reason ?? ""]];
}

/** The cells of an event. */
export function eventCells(/** @type {[string, string][]} */ texts) {
  return texts.map(([kind, text]) => cell(kind, text));
}
