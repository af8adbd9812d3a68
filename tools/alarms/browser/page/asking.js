// What an action wants to know: for how long, which number, and why.
import {$, allOf, choice, dialog, field, put} from "./dom.js";
import {t, w} from "./language.js";
import {say} from "./messages.js";
import {ask} from "./orders.js";
import {mostOf} from "./positions.js";
import {alarmOf, plantOf, plants, rowOf, tagAndPlant} from "./state.js";
import {readValue, shownValue} from "./values.js";
import {length} from "./words.js";
/** @typedef {import("./model.js").Plant} Plant */

const asking = {name: "", ids: /** @type {number[]} */ ([]), eras: /** @type {(string | null)[]} */ ([])};
/** @type {Record<string, string>} */
const TITLES = {SHELVE: w("Shelve"), "OOS ON": w("Put out of service"), "OOS OFF": w("Put back in service"),
  PRIO: w("Another priority"), SETP: w("Another setpoint")};
// Seconds for which alarms are shelved.
const DURATIONS = [900, 1800, 3600, 7200, 14400, 28800, 43200, 86400, 172800, 604800];
const MOST_TAGS = 30;

/** Asks what an action of some alarms wants to know. */
export function openDialog(/** @type {string} */ name, /** @type {number[]} */ ids) {
  const tags = ids.map(tagAndPlant), row = rowOf(ids[0]);
  const most = mostOf(name.split(" ")[0]);
  if (ids.length > most) {
    const values = {most, count: ids.length};
    return say(t("that is for {most} alarms at once at most, and {count} are selected", values), true);
  }
  Object.assign(asking, {name, ids, eras: plants.map(plant => plant.era)});
  put($("asking-what"), t(TITLES[name]));
  const some = tags.slice(0, MOST_TAGS).join(", ") + (tags.length > MOST_TAGS ? " .." : "");
  put($("asking-whom"), tags.length === 1 ? `${tags[0]}, ${alarmOf(row).text}`
    : t("{count} alarms: {tags}", {count: tags.length, tags: some}));
  put($("asking-said"), "");
  for (const part of ["duration", "minutes", "priority", "setpoint"]) $(`asking-${part}`).hidden = true;
  field("reason").value = "";
  if (name === "SHELVE") offerDurations(ids);
  $("asking-priority").hidden = name !== "PRIO";
  $("asking-setpoint").hidden = name !== "SETP";
  choice("priority").value = String(row.priority);
  field("setpoint").value = shownValue(alarmOf(row), row.limit);
  put($("asking-unit"), alarmOf(row).unit);
  field("asking-do").disabled = name === "SHELVE" && $("asking-duration").hidden;
  dialog("asking").showModal();
  (allOf("label:not([hidden]) :is(select, input)", $("asking"))[0] ?? field("reason")).focus();
}

function offerDurations(/** @type {number[]} */ ids) {
  const limits = ids.map(id => alarmOf(rowOf(id)).maxShelve).filter(Boolean);
  if (!limits.length) return put($("asking-said"), t("The table doesn't let them be shelved."));
  const most = Math.min(...limits), fit = DURATIONS.filter(seconds => seconds <= most);
  if (!fit.includes(most)) fit.push(most);
  const options = fit.map(seconds => new Option(length(seconds), String(seconds)));
  choice("duration").replaceChildren(...options, new Option(t("minutes.."), "other"));
  choice("duration").value = String(fit.includes(3600) ? 3600 : fit[0]);
  $("asking-duration").hidden = false;
  field("minutes").max = String(Math.floor(most / 60));
  const left = ids.length - limits.length;
  if (left) put($("asking-said"), t("The table doesn't let {count} of them be shelved.", {count: left}));
}

/** The number that an action has, as it was typed; a text says why it is none. */
function typed() {
  const duration = choice("duration").value;
  const seconds = duration === "other" ? Number(field("minutes").value) * 60 : Number(duration);
  switch (asking.name) {
    case "SHELVE": return Number.isSafeInteger(seconds) && seconds > 0 ? seconds : t("That is no number.");
    case "OOS ON": return 1;
    case "OOS OFF": return 0;
    case "PRIO": return Number(choice("priority").value);
    default: return readValue(alarmOf(rowOf(asking.ids[0])), field("setpoint").value.trim());
  }
}

function submit(/** @type {Event} */ event) {
  const value = typed(), reason = field("reason").value.trim();
  event.preventDefault();
  if (!reason) return put($("asking-said"), t("A reason is wanted."));
  if (typeof value === "string") return put($("asking-said"), value);
  dialog("asking").close();
  if (asking.ids.some(id => asking.eras[plantOf(id).place] !== plantOf(id).era)) {
    return say(t("the plant is another one than was seen: look again"), true);
  }
  ask(asking.name.split(" ")[0], asking.ids, {value, reason});
}

/** The plant is another one: nothing is asked of the one before. */
export function leaveDialog(/** @type {Plant} */ plant) {
  if (dialog("asking").open && asking.ids.some(id => plantOf(id) === plant)) dialog("asking").close();
}

/** Listens to the dialog. */
export function prepareDialog() {
  dialog("asking").querySelector("form")?.addEventListener("submit", submit);
  $("asking-leave").addEventListener("click", () => dialog("asking").close());
  dialog("asking").addEventListener("close", () => $("list").focus({preventScroll: true}));
  choice("duration").addEventListener("change", () => {
    $("asking-minutes").hidden = choice("duration").value !== "other";
  });
}
