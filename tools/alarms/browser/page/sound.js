// The sound for what nobody has acknowledged, by the most urgent priority.
import {$} from "./dom.js";
import {touch} from "./draw.js";
import {keep, kept} from "./kept.js";
import {t} from "./language.js";
import {isUnacknowledged} from "./model.js";
import {isOwnArea} from "./positions.js";
import {me, plants} from "./state.js";

/**
 * Pitches, in Hz.
 * @type {Record<number | string, number[]>}
 */
const SOUNDS = {1: [880, 880, 880], 2: [660, 660], 3: [520], 4: [390], lost: [300, 220]};
/**
 * Milliseconds between two sounds.
 * @type {Record<number, number>}
 */
const EVERY = {1: 2000, 2: 4000, 3: 8000, 4: 15000};

const sound = {
  on: kept("sound") !== "off", context: /** @type {AudioContext | null} */ (null), next: 0, priority: 0,
  /** the stamps that were silenced */
  silenced: /** @type {Map<number, number>} */ (new Map()),
};

const channel = "BroadcastChannel" in window ? new BroadcastChannel("silence") : null;
/** The alarms that were silenced. */
export const silenced = sound.silenced;
export const isSounding = () => Boolean(sound.priority);
const isAllowed = () => sound.context?.state === "running";

/**
 * What the sound's button says, and whether it is on.
 * @returns {[string, boolean]}
 */
export function soundWord() {
  return [!sound.on ? t("Sound off") : isAllowed() ? t("Sound on") : t("Allow sound"), sound.on];
}

/** The most urgent priority of what sounds; 0 where nothing does. */
function loudest() {
  let least = 0;
  for (const plant of plants) {
    for (const row of plant.rows) {
      const sounds = isUnacknowledged(row) && sound.silenced.get(row.id) !== row.stamp;
      if (sounds && (!least || row.priority < least) && isOwnArea(plant, row.area, "sound")) {
        least = row.priority;
      }
    }
  }
  return least;
}

/** Is called with each word of the stream, since timers rest in a page that isn't looked at. */
export function hear() {
  const least = loudest(), now = performance.now();
  if (least && (least < sound.priority || !sound.priority || now >= sound.next)) {
    play(least);
    sound.next = now + EVERY[least];
  }
  if (Boolean(least) !== Boolean(sound.priority)) touch();
  sound.priority = least;
  document.body.dataset.sounding = String(least);
}

/** Plays the tones of a priority, or of a loss. */
export function play(/** @type {number | "lost"} */ which) {
  const {context} = sound;
  if (!sound.on || !context || context.state !== "running") return;
  SOUNDS[which].forEach((pitch, place) => {
    const tone = context.createOscillator(), volume = context.createGain(), at = context.currentTime + place * 0.22;
    tone.frequency.value = pitch;
    tone.type = which === 1 ? "square" : "triangle";
    volume.gain.setValueAtTime(0.0001, at);
    volume.gain.exponentialRampToValueAtTime(0.25, at + 0.02);
    volume.gain.exponentialRampToValueAtTime(0.0001, at + 0.18);
    tone.connect(volume).connect(context.destination);
    tone.start(at);
    tone.stop(at + 0.2);
  });
  const before = Number((document.body.dataset.played ?? "0").split(" ")[0]);
  document.body.dataset.played = `${before + 1} ${which}`;
}

/** Browsers let a page sound once it was touched, or where they were started so. */
export function allowSound() {
  sound.context ??= new AudioContext();
  if (sound.context.state !== "running") sound.context.resume().then(touch, () => 0);
}

/** Ends the sound until another annunciation comes, in all windows of the browser: of what sounds here. */
export function silence() {
  const here = plants.flatMap(plant => plant.rows).filter(row =>
    isUnacknowledged(row) && isOwnArea(row.plant, row.area, "sound"));
  for (const row of here) sound.silenced.set(row.id, row.stamp);
  channel?.postMessage({user: me.user, silenced: here.map(row => [row.id, row.stamp])});
  hear();
  touch();
}

/** Another window was silenced. */
function hearSilence(/** @type {{user: string, silenced: [number, number][]}} */ {user, silenced: there}) {
  if (user !== me.user) return;
  for (const [id, stamp] of there) sound.silenced.set(id, stamp);
  hear();
}

/** The sound's button: allows it where the browser doesn't yet, else turns it on or off. */
function pressSound() {
  if (sound.on && !isAllowed()) return allowSound();
  sound.on = !sound.on;
  keep("sound", sound.on ? "on" : "off");
  touch();
}

/** Listens to its buttons, and to any touch that lets it sound. */
export function prepareSound() {
  $("sound").addEventListener("click", pressSound);
  $("silence").addEventListener("click", silence);
  if (channel) channel.onmessage = event => hearSilence(event.data);
  for (const kind of ["pointerdown", "keydown"]) document.addEventListener(kind, allowSound);
  allowSound();
}
