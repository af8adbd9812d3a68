// The heads of the columns, by which the list is sorted, and how wide the tags' and the areas' are.
import {$, allOf, button, made, target} from "./dom.js";
import {t, w} from "./language.js";
import {areSeveral, isJournal, look, plants} from "./state.js";
import {COLUMNS, columns} from "./views.js";

/**
 * What stands over the columns of the journal, and their classes.
 * @type {[string, string][]}
 */
const JOURNAL = [[w("Time"), "c-time"], [w("Action"), "c-number number"], [w("Plant"), "c-plant"],
  [w("Tag"), "c-tag"], [w("What happened"), "c-what"], [w("Became"), "c-state"], [w("By"), "c-user"],
  [w("Reason"), "c-reason"]];

/**
 * The columns as they are: a name, where one can sort by it, the words and the class.
 * @returns {[string, string, string][]}
 */
function heads() {
  if (!isJournal()) return columns().map(name => [name, t(COLUMNS[name][0]), COLUMNS[name][1]]);
  return JOURNAL.filter(([, kind]) => kind !== "c-plant" || areSeveral()).map(([text, kind]) => ["", t(text), kind]);
}

function head(/** @type {[string, string, string]} */ [name, text, kind]) {
  const one = made("th"), isSort = name !== "" && name === look.sort, isDot = name === "mark" && look.sort === "order";
  one.className = kind;
  one.setAttribute("role", "columnheader");
  one.setAttribute("scope", "col");
  if (isSort) one.setAttribute("aria-sort", look.down ? "descending" : "ascending");
  const sign = isSort ? (look.down ? " ▾" : " ▴") : isDot ? " ●" : "";
  const press = button({textContent: text + sign, disabled: !name || name === "box" || name === "marks"});
  if (name) press.dataset.sort = name === "mark" && look.sort !== "order" ? "order" : name;
  if (name === "mark") press.setAttribute("aria-label", t("Unacknowledged, then priority, then time"));
  if (name === "box") press.setAttribute("aria-label", t("Selected"));
  one.append(press);
  return one;
}

/** Draws the heads; whether they are others than before. */
export function drawColumns() {
  const all = heads(), key = JSON.stringify([all, look.sort, look.down]), place = $("columns");
  if (place.dataset.key === key) return false;
  document.body.classList.toggle("suppressed", !isJournal() && columns().includes("begun"));
  document.body.classList.toggle("all", look.view === "all");
  const focused = document.activeElement instanceof HTMLElement ? document.activeElement.dataset.sort : undefined;
  place.dataset.key = key;
  place.replaceChildren(...all.map(head));
  if (focused !== undefined) allOf(`[data-sort="${focused}"]`, place)[0]?.focus();
  measureColumns();
  return true;
}

/** How wide the widest of some texts is, in the font of an element. */
function widest(/** @type {string[]} */ texts, /** @type {Element} */ like) {
  const context = document.createElement("canvas").getContext("2d");
  let most = 0;
  if (context) context.font = getComputedStyle(like).font;
  for (const text of texts) most = Math.max(most, context?.measureText(text).width ?? 0);
  return Math.ceil(most);
}

// The tags are whole: their column is as wide as the longest one, and one that is wider than a screen has room for has
// a second line. Where areas' names have several lines, none of them ends within a word.
export function measureColumns() {
  const style = document.documentElement.style, column = allOf("#columns .c-tag")[0];
  const tag = widest(plants.flatMap(plant => plant.table.map(alarm => alarm.tag)), allOf(".tag-font")[0]) + 18;
  const word = widest(plants.flatMap(plant => plant.areas.flatMap(name => name.split(" "))), document.body) + 10;
  style.setProperty("--tag", `${tag}px`);
  style.setProperty("--word", `${word}px`);
  document.body.classList.toggle("long-tags", column !== undefined && column.offsetWidth < tag);
}

/** Listens to the heads. */
export function prepareColumns(/** @type {(name: string) => void} */ sortBy) {
  $("columns").addEventListener("click", event => {
    const name = target(event, "button")?.dataset.sort;
    if (name) sortBy(name);
  });
}
