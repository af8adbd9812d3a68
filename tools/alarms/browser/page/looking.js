// What is looked at: the view, the order and the filters.
import {$, allOf, choice, field, target} from "./dom.js";
import {draw} from "./draw.js";
import {keep, kept} from "./kept.js";
import {look, plants, screen} from "./state.js";
import {COLUMNS, VIEWS, columns} from "./views.js";
/** @typedef {typeof look} Look */

/** Turns to a view. */
export function turn(/** @type {string} */ view) {
  look.view = view;
  if (!columns().includes(look.sort)) look.sort = "order";
  screen.chosen.clear();
  Object.assign(screen, {cursor: 0, anchor: null, isPassed: false});
  $("list").scrollTop = 0;
  draw();
}

/** Sorts by a column, and the other way where it is sorted by that. */
export function sortBy(/** @type {string} */ name) {
  if (name === "mark" || name === "order") Object.assign(look, {sort: "order", down: false});
  else Object.assign(look, {down: look.sort === name ? !look.down : name === "time" || name === "value", sort: name});
  draw();
}

/** Leaves each row. */
export function clearFilters() {
  Object.assign(look, {area: "", state: "", text: "", priorities: new Set(), plants: new Set()});
  choice("state").value = field("text").value = "";
  draw();
}

/** Turns a filter's part on or off. */
function press(/** @type {Set<number>} */ pressed, /** @type {string | undefined} */ which) {
  if (which === undefined) return;
  if (!pressed.delete(Number(which))) pressed.add(Number(which));
  draw();
}

// Empty before the stream has begun.
const namesOf = () => plants.map(plant => plant.name);

/** Keeps what is looked at for as long as the window is open. */
export function keepLook() {
  const now = {...look, priorities: [...look.priorities], plants: [...look.plants], names: namesOf()};
  if (now.names.every(Boolean)) keep("look", JSON.stringify(now), sessionStorage);
}

/** Looks at what this window looked at last. Plants and areas are those of before where the plants are. */
export function restoreLook() {
  const {names, ...was} = readLook(), isSame = JSON.stringify(names) === JSON.stringify(namesOf());
  if (!(was.view in VIEWS)) return;
  Object.assign(look, was, {sort: was.sort in COLUMNS ? was.sort : "order", priorities: new Set(was.priorities)});
  Object.assign(look, isSame ? {plants: new Set(was.plants)} : {plants: new Set(), area: ""});
  choice("state").value = look.state;
  field("text").value = look.text;
}

/** What was kept, as far as it is that. */
function readLook() {
  try {
    return JSON.parse(kept("look", sessionStorage) ?? "{}");
  } catch (error) {
    return {};
  }
}

/** Listens to views and filters. */
export function prepareLooking() {
  $("priorities").addEventListener("click", event => press(look.priorities, target(event, "button")?.dataset.priority));
  $("plants").addEventListener("click", event => press(look.plants, target(event, "button")?.dataset.plant));
  for (const place of ["tabs", "holding"]) {
    $(place).addEventListener("click", event => {
      const view = target(event)?.dataset.view;
      if (view) turn(view);
    });
  }
  $("tabs").addEventListener("keydown", turnByKey);
  choice("area").addEventListener("change", () => {
    const {value} = choice("area");
    look.area = value === "" || value === "all" ? value : Number(value);
    draw();
  });
  choice("state").addEventListener("change", () => {
    look.state = choice("state").value;
    draw();
  });
  field("text").addEventListener("input", () => {
    look.text = field("text").value.trim().toLowerCase();
    draw();
  });
  $("clear").addEventListener("click", clearFilters);
}

function turnByKey(/** @type {KeyboardEvent} */ event) {
  const views = Object.keys(VIEWS), step = event.key === "ArrowRight" ? 1 : event.key === "ArrowLeft" ? -1 : 0;
  if (!step) return;
  event.preventDefault();
  turn(views[(views.indexOf(look.view) + step + views.length) % views.length]);
  allOf("[aria-selected=true]", $("tabs"))[0]?.focus();
}
