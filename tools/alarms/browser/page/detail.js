// What is known of the selected alarm on which the keys stand: what to do, why it comes, what follows, and its table.
import {$, made, put} from "./dom.js";
import {t, w} from "./language.js";
import {BY_DESIGN, OUT_OF_SERVICE, SHELVED} from "./model.js";
import {alarmOf, cursorRow, plants, screen} from "./state.js";
import {shownValue, withUnit} from "./values.js";
import {length, time} from "./words.js";
/** @typedef {import("./model.js").Alarm} Alarm */
/** @typedef {import("./model.js").Row} Row */

/** @type {Record<string, string>} */
const KINDS = {high: w("high"), low: w("low"), discrete: w("discrete")};

/** @type {Record<number, string>} */
const FLAGS = {[SHELVED]: w("Shelved"), [BY_DESIGN]: w("By design"), [OUT_OF_SERVICE]: w("Out of service")};

/** Draws it, in as many lines as there is anything to tell. */
export function drawDetail() {
  const row = cursorRow(), chosen = row && screen.chosen.has(row.id) ? row : undefined, place = $("detail");
  document.body.classList.toggle("detailed", plants.some(plant => plant.isDetailed));
  const key = chosen ? JSON.stringify([chosen.id, chosen.plant.era, chosen.limit, chosen.why]) : "";
  if (place.dataset.key === key) return;
  place.dataset.key = key;
  place.replaceChildren(...(chosen ? partsOf(chosen) : []));
}

function partsOf(/** @type {Row} */ row) {
  const alarm = alarmOf(row), {response, respond, cause, consequence, display} = alarm;
  const parts = [made("span", {id: "facts", textContent: facts(row, alarm)})];
  const what = respond ? t("Response within {time}", {time: length(respond)}) : t("Response");
  for (const [word, text] of [[what, response], [t("Cause"), cause], [t("Consequence"), consequence]]) {
    if (text) parts.push(part(word, text));
  }
  for (const [flag, moment, user, reason] of row.why) {
    const since = t("since {time}", {time: time(moment, row.plant)});
    parts.push(part(t(FLAGS[flag]), [since, user, reason].filter(Boolean).join(", ")));
  }
  if (display) parts.push(made("a", {href: display, target: "_blank", rel: "noopener", textContent: t("Display")}));
  return parts;
}

function part(/** @type {string} */ word, /** @type {string} */ text) {
  const one = made("span"), name = made("b");
  put(name, `${word}: `);
  one.append(name, text);
  return one;
}

/** What the table has of an alarm. */
function facts(/** @type {Row} */ row, /** @type {Alarm} */ alarm) {
  const {tag, kind, deadband, latching, maxShelve, text} = alarm;
  const most = maxShelve ? t("shelved for {time} at most", {time: length(maxShelve)}) : t("isn't shelved");
  const band = t("deadband {value}", {value: shownValue(alarm, deadband)});
  const all = [`${t(KINDS[kind])} ${withUnit(alarm, row.limit)}`, band, ...(latching ? [t("latches")] : []), most];
  return `${tag}: ${all.join(", ")}. ${text}`;
}
