// Values as an operator has them: those of the plant by the alarm's scale, with its decimals and its unit.
import {t} from "./language.js";
/** @typedef {import("./model.js").Alarm} Alarm */

/** A value of the plant in the operator's unit, without it. */
export function shownValue(/** @type {Alarm | undefined} */ alarm, /** @type {number} */ value) {
  return alarm ? (value / Number(alarm.scale)).toFixed(alarm.decimals) : String(value);
}

/** A value of the plant in the operator's unit, with it. */
export function withUnit(/** @type {Alarm | undefined} */ alarm, /** @type {number} */ value) {
  return shownValue(alarm, value) + (alarm?.unit ? ` ${alarm.unit}` : "");
}

/**
 * A decimal number as its digits and how many of them stand behind the point.
 * @returns {[bigint, number]}
 */
function digits(/** @type {string} */ text) {
  const [whole, fraction = ""] = text.split(".");
  return [BigInt(whole + fraction), fraction.length];
}

/**
 * The plant's value of what an operator typed: a whole number, or why it is none.
 * @param {Alarm} alarm
 * @param {string} text
 * @returns {number | string}
 */
export function readValue(alarm, text) {
  if (!/^-?[0-9]{1,13}([.][0-9]{1,12})?$/.test(text)) return t("That is no number.");
  const [value, behind] = digits(text), [scale, more] = digits(alarm.scale), one = 10n ** BigInt(behind + more);
  const product = value * scale;
  const step = 1 / Number(alarm.scale);
  if (product % one) return t("{text} is finer than the plant's values, which have steps of {step}.", {text, step});
  const whole = Number(product / one);
  return Number.isSafeInteger(whole) ? whole : t("That is too large.");
}
