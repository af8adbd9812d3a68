// What stands over the list: counts, clocks, plants, views and filters.
import {$, allOf, button, childrenOf, choice, field, made, put} from "./dom.js";
import {AREAS} from "./model.js";
import {t, w} from "./language.js";
import {ownPositions} from "./positions.js";
import {areSeveral, areaName, areaOf, isJournal, look, me, of_, plants, screen} from "./state.js";
import {isSounding, soundWord} from "./sound.js";
import {VIEWS} from "./views.js";
import {time} from "./words.js";
/** @typedef {import("./model.js").Plant} Plant */

/** @type {Record<string, string>} */
const ROLES = {viewer: w("viewer"), operator: w("operator"), engineer: w("engineer")};

/** The counts of the priorities, who looks, and the sound. */
export function drawHead() {
  for (const one of childrenOf($("priorities"))) {
    const priority = Number(one.dataset.priority), [unacknowledged, all] = screen.priorities[priority];
    put(/** @type {Element} */ (one.lastElementChild), `${unacknowledged} / ${all}`);
    one.setAttribute("aria-pressed", String(look.priorities.has(priority)));
    one.setAttribute("aria-label", t("Priority {priority}: {unacknowledged} unacknowledged of {all}",
      {priority, unacknowledged, all}));
  }
  put($("clock"), plants[0].era && !areSeveral() ? t("Plant {time}", {time: time(plants[0].head.now, plants[0])}) : "");
  put($("who"), me.user ? `${me.user} (${t(ROLES[me.role])})` : "");
  $("who").title = $("who").textContent ?? "";
  const [word, isOn] = soundWord();
  put($("sound"), word);
  $("sound").setAttribute("aria-pressed", String(isOn));
  field("silence").disabled = !isSounding();
  const unacknowledged = screen.priorities.reduce((sum, pair) => sum + pair[0], 0);
  document.title = (unacknowledged ? `(${unacknowledged}) ` : "") + t("Alarm list");
}

/** Of several plants: how many alarms nobody has acknowledged, of how many, and the plant's clock. */
export function drawPlants() {
  const place = $("plants");
  for (const one of [place, ...allOf("[data-several]")]) one.hidden = !areSeveral();
  if (!areSeveral()) return place.replaceChildren();
  while (place.children.length > plants.length) place.lastElementChild?.remove();
  while (place.children.length < plants.length) place.append(button());
  plants.forEach((plant, at) => {
    const one = childrenOf(place)[at], [unacknowledged, all] = plant.counts;
    one.dataset.plant = String(at);
    const now = plant.isOld ? t("no server") : time(plant.head.now, plant);
    put(one, `${plant.name}  ${unacknowledged} / ${all}  ${now}`);
    one.classList.toggle("old", plant.isOld);
    one.setAttribute("aria-pressed", String(look.plants.has(at)));
    const said = t("{plant}: {unacknowledged} unacknowledged of {all}", {plant: plant.name, unacknowledged, all});
    one.setAttribute("aria-label", said + (plant.isOld ? `, ${t("no server")}` : ""));
  });
}

const isCounted = (/** @type {string} */ view) => view !== "journal" && view !== "all";

/** The views, with how many rows each has. */
export function drawTabs() {
  for (const tab of childrenOf($("tabs"))) {
    const view = tab.dataset.view ?? "";
    put(tab, t(VIEWS[view][0]) + (isCounted(view) ? ` ${screen.counts[view]}` : ""));
    tab.setAttribute("aria-selected", String(view === look.view));
    tab.tabIndex = view === look.view ? 0 : -1;
  }
}

/** How many areas a plant has, as far as it is known. */
const areasOf = (/** @type {Plant | undefined} */ plant) => plant?.head.floods?.length ?? 0;

/** The filters, and what they hide. */
export function drawFilters() {
  put($("others"), screen.others ? t("{count} of others' areas", {count: screen.others}) : "");
  put($("hidden"), screen.hidden ? t("{count} hidden by filters", {count: screen.hidden}) : "");
  const select = choice("area"), names = plants.flatMap(plant =>
    Array.from({length: areasOf(plant)}, (_, area) => [of_(plant, areaName(plant, area)), areaOf(plant, area)]));
  const whole = ownPositions().length ? [[t("my areas"), ""], [t("all"), "all"]] : [[t("all"), ""]];
  const key = JSON.stringify([whole, names]);
  if (select.dataset.names !== key) {
    select.dataset.names = key;
    select.replaceChildren(...[...whole, ...names].map(([name, area]) => new Option(String(name), String(area))));
  }
  const plant = typeof look.area === "number" ? plants[Math.floor(look.area / AREAS)] : undefined;
  const isGone = typeof look.area === "number" && look.area % AREAS >= areasOf(plant) && (!plant || plant.era);
  if (isGone || (look.area === "all" && whole.length < 2)) look.area = "";
  select.value = String(look.area);
  choice("state").disabled = isJournal();
}

// Letters of the room for a view's count: the blank before it, five digits, and one to spare.
const COUNT = 7;

/** Makes what stands over the list for as long as the page is open. A view has room by its word and its largest count,
 * so that neither is cut and no count moves another view. */
export function prepareTabs() {
  const letters = Object.keys(VIEWS).map(view => t(VIEWS[view][0]).length + (isCounted(view) ? COUNT : 1));
  $("tabs").style.setProperty("--tabs", letters.map(count => `minmax(0, ${count}fr)`).join(" "));
  for (const view of Object.keys(VIEWS)) {
    const tab = button();
    tab.dataset.view = view;
    tab.setAttribute("role", "tab");
    tab.setAttribute("aria-controls", "list");
    $("tabs").append(tab);
  }
}

/** Makes a button of each priority. */
export function preparePriorities(/** @type {(priority: number) => Node} */ markOf) {
  for (const priority of [1, 2, 3, 4]) {
    const one = button();
    one.dataset.priority = String(priority);
    one.append(markOf(priority), made("span"));
    $("priorities").append(one);
  }
}
