// Why the list may be old, and what else an operator should be told of.
import {$, put} from "./dom.js";
import {draw} from "./draw.js";
import {kept} from "./kept.js";
import {t, w} from "./language.js";
import {link} from "./link.js";
import {untaken} from "./shift.js";
import {play} from "./sound.js";
import {areSeveral, of_, plants} from "./state.js";
import {span} from "./words.js";
/** @typedef {import("./model.js").Plant} Plant */

// Milliseconds of silence that are a loss, and seconds without an answer of the server after which the list may be old.
export const SILENCE = 1500, OLD = 1;
// Milliseconds for which it is said that not all is of one moment: as long as it takes to read.
const READ = 2000;

/** Why nothing is heard of alm_browser itself; empty while something is. */
function silentSince() {
  const silent = performance.now() - link.heard;
  if (link.signedOut) {
    return kept("key") === null ? t("SIGNED OUT, the list may be old. Load the page again to sign in.")
      : t("SIGNED OUT, the list may be old. Open the address that alm_browser printed last.");
  }
  if (silent <= SILENCE) return "";
  if (link.refused) return t("NO LIST, what is shown may be old: {why}", {why: t(link.refused)});
  return t("NO SERVER, the list may be old: nothing heard for {seconds} s", {seconds: Math.round(silent / 1000)});
}

/** Why a plant's rows may be old; empty while they aren't. */
function oldness(/** @type {Plant} */ plant) {
  const {age, trouble} = plant.head, what = areSeveral() ? w("NO SERVER, its rows may be old: {why}")
    : w("NO SERVER, the list may be old: {why}");
  const since = t("no answer for {seconds} s", {seconds: Math.round(age)}), why = t(trouble);
  if (age > OLD) return t(what, {why: why ? `${since} (${why})` : since});
  if (trouble) return t(what, {why});
  return plant.era ? "" : t("NO SERVER, there is no list yet");
}

/** What else there is to say of a plant. */
function faults(/** @type {Plant} */ plant, /** @type {boolean} */ isOld) {
  const {still, fault, denied} = plant.head, said = [];
  const time = span(still);
  if (!isOld && still) {
    said.push(t("The plant's clock has stood still for {time}: no shelving and no flood ends", {time}));
  }
  if (denied.length) {
    said.push(t("NOT AS THE SERVER SAYS: {count} of these rows, first {tag}", {count: denied.length, tag: denied[0]}));
  }
  if (fault) said.push(t("Who does what isn't kept: {why}", {why: fault}));
  return said.map(text => of_(plant, text));
}

/** What there is to say where not all of a plant is of one moment; nothing where it is. */
function mixture(/** @type {Plant} */ plant) {
  const isMixed = performance.now() - plant.mixedAt < READ;
  return isMixed ? of_(plant, t("Not all of this is of one moment")) : "";
}

/** Says what is wrong, and greys what may be old. */
export function drawTrouble() {
  const silent = silentSince(), lines = [silent];
  let isLost = false, isOther = false;
  for (const plant of plants) {
    const old = silent || oldness(plant), isOld = Boolean(old);
    if (old && !silent) lines.push(of_(plant, old));
    lines.push(...faults(plant, isOld));
    isOther ||= isOld !== plant.isOld;
    isLost ||= isOld && !plant.isOld;
    plant.isOld = isOld;
  }
  lines.push(untaken());
  put($("mixed"), plants.map(mixture).filter(Boolean).join(". "));
  put($("trouble"), lines.filter(Boolean).join(". "));
  $("trouble").hidden = !$("trouble").textContent;
  drawConnection();
  if (isLost) play("lost");
  if (isOther) draw();
}

function drawConnection() {
  const answering = plants.filter(plant => !plant.isOld).length;
  const one = answering ? t("Server answers") : t("No server"), all = plants.length;
  put($("connection"), areSeveral() ? t("{count} of {all} servers answer", {count: answering, all}) : one);
  document.body.classList.toggle("old", !answering);
}
