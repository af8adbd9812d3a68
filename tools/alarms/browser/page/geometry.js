// Where the lines of the list stand on the screen.
import {$} from "./dom.js";
import {lines} from "./state.js";

/** The height of a line in pixels, which all have. */
export function rowHeight() {
  return parseInt(getComputedStyle(document.documentElement).getPropertyValue("--row"), 10);
}

/** The pixels that the list has for lines. */
export function room() {
  return $("list").clientHeight - $("columns").offsetHeight;
}

/** Which lines are whole on the screen: the first of them, and the one behind the last. */
export function onScreen() {
  const {scrollTop} = $("list"), height = rowHeight(), first = Math.ceil((scrollTop - 2) / height);
  return [Math.max(0, first), Math.min(lines(), Math.floor((scrollTop + room() + 2) / height))];
}

/** Which lines have any part on the screen. */
export function partlyOnScreen() {
  const {scrollTop} = $("list"), height = rowHeight();
  return [Math.max(0, Math.floor(scrollTop / height)), Math.min(lines(), Math.ceil((scrollTop + room()) / height))];
}

/** Scrolls as far as a line is on the screen. */
export function reveal(/** @type {number} */ place) {
  const list = $("list"), height = rowHeight();
  list.scrollTop = Math.min(place * height, Math.max(list.scrollTop, (place + 1) * height - room()));
}
