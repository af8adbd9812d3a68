// The change of a shift: who has which position, and the dialog in which one is taken or left.
import {$, button, dialog, field, made, put, target} from "./dom.js";
import {t, w} from "./language.js";
import {isUnacknowledged} from "./model.js";
import {askShift} from "./orders.js";
import {freePositions, holderOf, isManned, isOwn, ownPositions} from "./positions.js";
import {areaName, me, of_, plants} from "./state.js";
/** @typedef {import("./state.js").Position} Position */

/** The areas of a position, by their names. */
function areasOf(/** @type {Position} */ {areas}) {
  if (!areas) return t("all areas");
  return areas.map(([number, area]) => plants[number] ? of_(plants[number], areaName(plants[number], area)) : "")
    .join(", ");
}

/** How many of a position's alarms aren't normal, how many of those nobody has acknowledged, and are suppressed. */
function standing(/** @type {Position} */ {areas}) {
  const rows = plants.flatMap(plant => plant.rows).filter(row => row.shown !== "NORM" &&
    (!areas || areas.some(([number, area]) => number === row.plant.place && area === row.area)));
  const how = rows.length === 1 ? w("1 alarm, {unacknowledged} unacknowledged, {suppressed} suppressed")
    : w("{all} alarms, {unacknowledged} unacknowledged, {suppressed} suppressed");
  return t(how, {all: rows.length, unacknowledged: rows.filter(isUnacknowledged).length,
    suppressed: rows.filter(row => row.flags).length});
}

function who(/** @type {number} */ place) {
  const [user, since, remark] = holderOf(place), at = since ? new Date(since * 1000).toLocaleString("en-CA",
    {dateStyle: "short", timeStyle: "short", hour12: false}) : "";
  const how = isManned(place) ? w("{user} since {at}") : w("{user} since {at}, has no list open");
  const said = user ? t(how, {user, at}) : since ? t("nobody since {at}", {at}) : t("nobody");
  return remark ? `${said}: ${remark}` : said;
}

function card(/** @type {Position} */ position, /** @type {number} */ place) {
  const one = made("li"), change = button({textContent: isOwn(place) ? t("Leave") : t("Take")});
  change.dataset.place = String(place);
  one.append(change, made("b", {textContent: position.name}), made("span", {textContent: who(place)}),
    made("span", {textContent: `${standing(position)}. ${areasOf(position)}`}));
  return one;
}

/** Draws which positions the operator has, and the dialog while it is open. */
export function drawShift() {
  const names = ownPositions().map(one => one.name).join(", "), place = $("shifts");
  $("position").hidden = !me.positions.length;
  put($("position"), names || t("No position"));
  $("position").title = names;
  $("position").classList.toggle("none", !names);
  if (!dialog("shift").open) return;
  const cards = me.positions.map(card), key = cards.map(one => one.textContent).join("\n");
  if (place.dataset.key === key) return;
  const active = document.activeElement instanceof HTMLElement ? document.activeElement.dataset.place : undefined;
  place.dataset.key = key;
  place.replaceChildren(...cards);
  if (active !== undefined) /** @type {HTMLElement | null} */ (cards[Number(active)]?.firstElementChild)?.focus();
}

/** The positions at which nobody is, where there are such. */
export function untaken() {
  const names = freePositions().map(one => one.name);
  return names.length ? t("Nobody is at {positions}", {positions: names.join(", ")}) : "";
}

/** Opens the dialog. */
function open() {
  field("remark").value = "";
  delete $("shifts").dataset.key;
  dialog("shift").showModal();
  drawShift();
}

function press(/** @type {Event} */ event) {
  const place = Number(target(event, "button")?.dataset.place ?? NaN), position = me.positions[place];
  if (!position) return;
  const reason = field("remark").value.trim(), isLeft = isOwn(place);
  const said = t(isLeft ? w("{position} left: {standing}") : w("{position} taken: {standing}"),
    {position: position.name, standing: standing(position)});
  askShift(isLeft ? "LEAVE" : "TAKE", place, reason, said);
  dialog("shift").close();
}

/** Listens to its button and its dialog. */
export function prepareShift() {
  $("position").addEventListener("click", open);
  $("shifts").addEventListener("click", press);
}
