// What is said to the operator, in the place that it has.
import {$, put} from "./dom.js";

/** Says what came of something; `isBad` where it isn't as it was wanted. */
export function say(/** @type {string} */ text, isBad = false) {
  put($("said"), text);
  $("said").title = text;
  $("said").classList.toggle("bad", isBad);
}
