// The buttons over the list: which of them are offered, and what each does.
import {$, allOf, childrenOf, dialog, put, target} from "./dom.js";
import {openDialog} from "./asking.js";
import {t} from "./language.js";
import {OUT_OF_SERVICE, SHELVED, isUnacknowledged} from "./model.js";
import {ask} from "./orders.js";
import {mayAsk} from "./positions.js";
import {shownRows} from "./rows.js";
import {READ, isRead} from "./seen.js";
import {isJournal, isLeftOut, plants, rowOf, screen} from "./state.js";
/** @typedef {import("./model.js").Row} Row */

/**
 * Which of the selected alarms each action is for.
 * @type {Record<string, (row: Row) => unknown>}
 */
const FOR = {
  ACK: isUnacknowledged,
  RESET: row => row.shown === "LATAK",
  SHELVE: row => !(row.flags & SHELVED),
  UNSHELVE: row => row.flags & SHELVED,
  "OOS ON": row => !(row.flags & OUT_OF_SERVICE),
  "OOS OFF": row => row.flags & OUT_OF_SERVICE,
  PRIO: () => true,
  SETP: () => screen.chosen.size === 1,
};

const unacknowledgedShown = () => shownRows().filter(row =>
  isUnacknowledged(row) && mayAsk("ACK", row) && !isLeftOut(row) && isRead(row));
const chosenRows = () => isJournal() ? [] : [...screen.chosen].map(rowOf).filter(row => !isLeftOut(row));
const wordOf = (/** @type {string} */ name) => name === "SHOWN" ? "ACK" : name.split(" ")[0];
const isFor = (/** @type {string} */ name, /** @type {Row} */ row) => FOR[name](row) && mayAsk(wordOf(name), row);

/** Draws which actions there are now. */
export function drawActions() {
  const chosen = chosenRows(), shown = unacknowledgedShown().length, isOld = plants.every(plant => plant.isOld);
  for (const one of /** @type {HTMLButtonElement[]} */ (allOf("button", $("actions")))) {
    const name = one.dataset.act ?? "";
    one.hidden = !mayAsk(wordOf(name));
    one.disabled = isOld || (name === "SHOWN" ? !shown : !chosen.some(row => isFor(name, row)));
    const many = shown ? t("Acknowledge {count} shown", {count: shown}) : t("Acknowledge shown");
    if (name === "SHOWN") put(childrenOf(one)[0], many);
  }
}

/** Does an action of the selected alarms, where it is offered. */
export function act(/** @type {string} */ name) {
  const one = /** @type {HTMLButtonElement | undefined} */ (allOf(`[data-act="${name}"]`, $("actions"))[0]);
  if (!one || one.disabled || one.hidden) return;
  if (name === "SHOWN") return void ask("ACK", unacknowledgedShown().map(row => row.id), {glance: READ});
  const ids = chosenRows().filter(row => isFor(name, row)).map(row => row.id);
  if (name === "ACK" || name === "RESET" || name === "UNSHELVE") return void ask(name, ids);
  openDialog(name, ids);
}

/** Listens to the buttons. Who pressed one by hand goes on with the keys of the list. */
export function prepareActions() {
  $("actions").addEventListener("click", event => {
    const name = target(event, "button")?.dataset.act;
    if (name) act(name);
    if (event.detail && !dialog("asking").open) $("list").focus({preventScroll: true});
  });
}
