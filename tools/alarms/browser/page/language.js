// The page's words in the operator's language.
import {told} from "./told_words.js";

/** A text of the page that is told in the operator's language later. */
export const w = (/** @type {string} */ text) => text;

/**
 * A text of the page as the operator reads it, with values in the place of their names in braces.
 * @param {string} text as English has it
 * @param {Record<string, string | number>} [values]
 */
export function t(text, values = {}) {
  return (Object.hasOwn(told, text) ? told[text] : text).replace(/\{(\w+)\}/g, (_, name) => String(values[name] ?? ""));
}
