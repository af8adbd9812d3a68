// What an operator asks for goes out by /do, bound to the annunciation that was on the screen; what came of it is said.
import {touch} from "./draw.js";
import {t, w} from "./language.js";
import {link, within, wordsOf} from "./link.js";
import {say} from "./messages.js";
import {ALARMS, idOf} from "./model.js";
import {GLANCE, stampSeen} from "./seen.js";
import {pass} from "./selection.js";
import {me, of_, plantOf, plants, tagAndPlant} from "./state.js";
/** @typedef {import("./model.js").Plant} Plant */
/** @typedef {[number, string, number | null, string]} Answer an alarm, the outcome, the action's number, the words */
/** @typedef {{word: string, ids: number[], value?: number, reason?: string, glance: number}} Order */

const MOST_ALARMS = 1000;
// Milliseconds that a reply may take.
export const REPLY = 5000;
/** @type {Record<string, string>} */
const DONE = {ACK: w("{what} acknowledged"), RESET: w("{what} reset"), SHELVE: w("{what} shelved"),
  UNSHELVE: w("{what} unshelved"), PRIO: w("{what} given another priority"), SETP: w("{what} given another setpoint"),
  "OOS ON": w("{what} out of service"), "OOS OFF": w("{what} back in service")};

/**
 * Says what was done of an order, and why the rest wasn't.
 * @param {Order} order
 * @param {Answer[]} answers
 * @param {string[]} faults
 */
function sayAnswers({word, value}, answers, faults) {
  const done = answers.filter(answer => answer[1] === "done");
  const which = DONE[word === "OOS" ? (value ? "OOS ON" : "OOS OFF") : word];
  const head = t(which, {what: done.length === 1 ? tagAndPlant(done[0][0]) : done.length});
  /** @type {Map<string, string[]>} */
  const reasons = new Map();
  for (const [id, , , why] of answers) if (why) reasons.set(why, [...(reasons.get(why) ?? []), tagAndPlant(id)]);
  const rest = [...reasons].map(([why, tags]) => `${several(tags)}: ${t(why)}`).concat(faults);
  say([done.length || !rest.length ? head : "", ...rest].filter(Boolean).join("; "), rest.length > 0);
}

function several(/** @type {string[]} */ tags) {
  const some = tags.slice(0, 4).join(", ");
  return tags.length > 4 ? t("{tags} and {count} more", {tags: some, count: tags.length - 4}) : some;
}

/**
 * Asks a plant for an action of some of its alarms: what came of each, or why nothing is known of them.
 * @param {Plant} plant
 * @param {Order} order
 * @returns {Promise<{answers: Answer[], fault: string}>}
 */
async function askPlant(plant, {word, ids, value, reason, glance}) {
  const alarms = ids.map(id => [id % ALARMS, stampSeen(id, glance)]);
  const body = JSON.stringify({plant: plant.place, era: plant.era, word, alarms, value, reason});
  const headers = {"Content-Type": "application/json", "X-Alarms-Key": me.key};
  try {
    const reply = await fetch("/do", {method: "POST", headers, body, signal: within(REPLY)});
    if (reply.status === 401) link.again();
    if (!reply.ok) {
      const why = t(await wordsOf(reply)) || reply.status;
      return {answers: [], fault: of_(plant, t("not done: {why}", {why}))};
    }
    const told = /** @type {{answers: Answer[]}} */ (await reply.json());
    return {answers: told.answers.map(([n, ...rest]) => [idOf(plant, n), ...rest]), fault: ""};
  } catch (error) {
    const isLate = error instanceof DOMException && error.name === "TimeoutError";
    const fault = isLate ? t("no reply came within {seconds} s: look whether it was done", {seconds: REPLY / 1000})
      : t("no reply came: look whether it was done");
    return {answers: [], fault: of_(plant, fault)};
  }
}

/**
 * Takes or leaves the position of a place.
 * @param {"TAKE" | "LEAVE"} word
 * @param {number} place
 * @param {string} reason what the next one should know
 * @param {string} done what is said once it is done
 */
export async function askShift(word, place, reason, done) {
  say("..");
  const {answers, fault} = await askPlant(plants[0], {word, ids: [], value: place, reason, glance: 0});
  const why = fault || t(answers[0]?.[3] ?? "");
  say(why || done, Boolean(why));
  touch();
}

/**
 * Asks for an action of some alarms, each at its own plant.
 * @param {string} word
 * @param {number[]} ids
 * @param {{value?: number, reason?: string, glance?: number}} [more] `glance`: for how many milliseconds each has to
 *     have been on the screen
 */
export async function ask(word, ids, more = {}) {
  const {value, reason, glance = GLANCE} = more;
  if (!ids.length || ids.length > MOST_ALARMS) {
    return say(ids.length ? t("choose at most {most} alarms", {most: MOST_ALARMS}) : t("nothing to do"), true);
  }
  say("..");
  const asked = plants.filter(plant => ids.some(id => plantOf(id) === plant));
  const results = await Promise.all(asked.map(plant =>
    askPlant(plant, {word, ids: ids.filter(id => plantOf(id) === plant), value, reason, glance})));
  const faults = results.map(result => result.fault).filter(Boolean);
  const answers = results.flatMap(result => result.answers);
  sayAnswers({word, ids, value, glance}, answers, faults);
  if (word !== "PRIO" && word !== "SETP") pass(answers.filter(answer => answer[1] === "done").map(([id]) => id));
  touch();
}
