// The keys. They hold wherever the focus is, but in fields and dialogs.
import {act} from "./actions.js";
import {dialog, field, target} from "./dom.js";
import {touch} from "./draw.js";
import {turn} from "./looking.js";
import {onScreen} from "./geometry.js";
import {work} from "./hold.js";
import {showNewcomers} from "./newcomers.js";
import {goTo, selectAll, selectNone, toggle} from "./selection.js";
import {silence} from "./sound.js";
import {cursorRow, isJournal, lines, screen} from "./state.js";
import {VIEWS} from "./views.js";

/** @type {Record<string, string>} */
const ACTS = {a: "ACK", A: "SHOWN", r: "RESET", s: "SHELVE", u: "UNSHELVE", o: "OOS ON", i: "OOS OFF", p: "PRIO",
  t: "SETP"};
const MOVES = new Set(["ArrowDown", "ArrowUp", "PageDown", "PageUp", "Home", "End"]);
/** @type {Record<string, () => void>} */
const OTHERS = {
  Escape: selectNone,
  m: silence,
  n: showNewcomers,
  "/": () => field("text").focus(),
  "?": () => dialog("page").showModal(),
};

function move(/** @type {KeyboardEvent} */ event) {
  const page = Math.max(1, onScreen()[1] - onScreen()[0] - 1), last = lines() - 1;
  /** @type {Record<string, number>} */
  const steps = {ArrowDown: 1, ArrowUp: -1, PageDown: page, PageUp: -page, Home: -last, End: last};
  if (last < 0) return;
  const isFirst = !screen.chosen.size && !screen.isPassed && Math.abs(steps[event.key]) === 1 && !isJournal();
  goTo(isFirst ? screen.cursor : Math.max(0, Math.min(last, screen.cursor + steps[event.key])), event.shiftKey);
}

/** Does what a key is for; whether it is for anything. */
function press(/** @type {KeyboardEvent} */ event) {
  const {key} = event, isHeld = event.ctrlKey || event.metaKey, row = cursorRow();
  if (MOVES.has(key)) move(event);
  else if (isHeld && key === "a" && !isJournal()) selectAll();
  else if (isHeld || event.altKey) return false;
  else if (key === " " && row) toggle(row.id);
  else if (key in OTHERS) OTHERS[key]();
  else if (key in ACTS) act(ACTS[key]);
  else if (key >= "1" && key <= "8") turn(Object.keys(VIEWS)[Number(key) - 1]);
  else return false;
  return true;
}

/** Hears a key. Those that a control has of its own are its own. */
function hearKey(/** @type {KeyboardEvent} */ event) {
  const control = target(event, "button");
  work();
  if (event.repeat && event.key === "Enter" && control) event.preventDefault();
  if (event.defaultPrevented || event.isComposing || target(event, "input, select, textarea")) return;
  if (document.querySelector("dialog[open]") || (control && (event.key === " " || event.key === "Enter"))) return;
  // A key that is held moves, and does nothing else.
  if (event.repeat && !MOVES.has(event.key)) {
    if (event.key === " ") event.preventDefault();
  } else if (press(event)) {
    event.preventDefault();
    touch();
  }
}

/** Listens to the keys of the whole page. */
export function prepareKeys() {
  document.addEventListener("keydown", hearKey);
}
