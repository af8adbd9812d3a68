// The stream of what is shown: it is connected to, watched, and connected to again.
import {kept} from "./kept.js";
import {w} from "./language.js";
import {link, within, wordsOf} from "./link.js";
import {hearEvent, takeEvents} from "./news.js";
import {REPLY} from "./orders.js";
import {begin, shareLink} from "./sharing.js";
import {me} from "./state.js";
import {SILENCE} from "./trouble.js";

// Milliseconds between two tries; where somebody signed out; and where too many have asked for the page.
const AGAIN = 700, LEFT = 2000, LOCKED = 10000;
// Milliseconds for which a stream may be silent; and the most that a new one may take to begin.
const LOST = 4 * SILENCE, MOST = 32000;
// Milliseconds for which a browser may ask for a password; and what is said then.
const BY_HAND = 60000, ASKED = w("the browser asks for the password: give it there, or load the page again");

// Each stream that is begun is another one; what an older one left to be done isn't done. Each that was begun in vain
// gives the next one twice the time: where all is slow, a try that ends too soon makes it slower.
const stream = {run: 0, stop: () => {}, patience: LOST};

/** Begins: with a stream, or with that of another window of this browser. */
export function listenToStream() {
  me.key = kept("key") ?? "";
  begin({connect, stop: () => stream.stop(), hear: hearEvent});
}

/** Connects, and takes what comes until the end. */
async function connect() {
  const control = new AbortController(), run = ++stream.run, begun = performance.now();
  me.key = kept("key") ?? me.key;
  stream.stop = () => {
    stream.run++;
    control.abort();
    clearInterval(watched);
  };
  // A stream that is silent is taken for lost, also where the system doesn't say so.
  const watched = setInterval(() => {
    const isHeard = link.heard > begun;
    if (isHeard) stream.patience = LOST;
    else shareLink();  // and no other window takes it over
    if (performance.now() - Math.max(link.heard, begun) <= stream.patience) return;
    if (!isHeard) stream.patience = Math.min(2 * stream.patience, MOST);
    again();
  }, SILENCE);
  const again = link.again = () => {
    if (stream.run !== run) return;
    stream.stop();
    const next = stream.run;
    setTimeout(() => enter(next), AGAIN);
  };
  try {
    await listen(control.signal);
  } catch (error) {
    // it is lost, or was refused
  }
  again();
}

async function listen(/** @type {AbortSignal} */ signal) {
  const reply = await fetch("/stream", {headers: {"X-Alarms-Key": me.key}, signal});
  if (!reply.ok || !reply.body) throw new Error(link.refused = await wordsOf(reply));
  const reader = reply.body.pipeThrough(new TextDecoderStream()).getReader();
  for (let rest = "", part = await reader.read(); !part.done; part = await reader.read()) {
    rest = takeEvents(rest + part.value);
  }
}

/** Whether a proxy's user has signed out. The page would ask for a password then, again and again: so another window
 * lets this one in. */
function hasLeft() {
  if (link.signedOut) shareLink();
  return link.signedOut && kept("key") === null;
}

/** Asks for the page, at which a proxy lets a user in: the status. Where the browser has forgotten the password it asks
 * for it meanwhile, and a hand takes its time; that is said. */
async function askPage() {
  const waits = setInterval(() => {
    link.refused = ASKED;
    shareLink();
  }, REPLY);
  try {
    return (await fetch("/", {signal: within(BY_HAND)})).status;
  } finally {
    clearInterval(waits);
  }
}

/** After a restart a proxy's user is let in again by the page; a token's has to sign in. */
async function enter(/** @type {number} */ run) {
  let status = 0, isThere = false;
  if (stream.run !== run) return;
  if (hasLeft()) return void setTimeout(() => stream.run === run && connect(), LEFT);
  try {
    // a proxy counts who asks for the page, and not for its parts
    isThere = (await fetch("/icon.svg", {signal: within(REPLY)})).ok;
    if (isThere) status = await askPage();
  } catch (error) {
    if (!isThere) link.refused = "";
  }
  if (stream.run !== run) return;
  link.signedOut = status === 401;
  shareLink();
  if (status !== 200) return void setTimeout(() => enter(run), status === 429 ? LOCKED : AGAIN);
  connect();
}
