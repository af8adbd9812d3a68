// The windows of a browser share one stream: one of them has it, and tells the others. A browser has six connections to
// a host, and each stream keeps one.
import {link} from "./link.js";
/** @typedef {{kind: string, told: any, to?: string}} Message */

// The copy of a plant as it was told, for windows that come later.
/** @type {Map<number, any>} */
const copies = new Map();
/** @type {any} */
let hello = null;
/** @type {string[]} */
let present = [];
const name = String(Math.random());
const sharing = {
  isFirst: false, channel: /** @type {BroadcastChannel | null} */ (null),
  hear: /** @type {(message: Message) => void} */ (() => undefined),
  /** when a window was heard that has the stream */
  heard: performance.now(),
};
// Milliseconds of silence after which another window takes the stream over.
const STUCK = 6000;
const LOCK = "stream";
const MOST_EVENTS = 1000;

/** Keeps what was told, as a stream tells it at its begin. */
function copy(/** @type {string} */ kind, /** @type {any} */ told) {
  if (kind === "hello") hello = told;
  else if (kind === "present") present = told;
  else if (kind === "all") {
    const rows = new Map(told.rows.map((/** @type {any[]} */ row) => [row[0], row]));
    copies.set(told.plant, {...told, rows});
  } else if (kind === "news") {
    const one = copies.get(told.plant);
    for (const row of told.rows) one.rows.set(row[0], row);
    one.events = one.events.concat(told.events).slice(-MOST_EVENTS);
    one.head = told.head;
  }
}

function post(/** @type {Message} */ message) {
  sharing.channel?.postMessage(message);
}

/** Tells the other windows what the stream told this one. */
export function share(/** @type {string} */ kind, /** @type {any} */ told) {
  if (!sharing.channel) return;
  copy(kind, told);
  post({kind, told});
}

/** Tells them how alm_browser is reached. */
export function shareLink() {
  post({kind: "link", told: {signedOut: link.signedOut, refused: link.refused}});
}

/** Tells a window that came later all that there is. */
function welcome(/** @type {string} */ to) {
  if (!hello) return;
  post({kind: "hello", told: hello, to});
  post({kind: "present", told: present, to});
  for (const one of copies.values()) post({kind: "all", told: {...one, rows: [...one.rows.values()]}, to});
}

function receive(/** @type {Message} */ message) {
  const {kind, told, to} = message;
  if (sharing.isFirst) {
    if (kind === "ask") welcome(told);
    if (kind === "again") link.again();
  } else if (kind !== "ask" && kind !== "again") {
    sharing.heard = performance.now();
    if (kind === "link") Object.assign(link, told);
    else if (to === undefined || to === name) sharing.hear(message);
  }
}

/**
 * Begins: with a stream of its own, or with what another window tells.
 * @param {{connect: () => void, stop: () => void, hear: (kind: string, told: any) => void}} by
 */
export function begin({connect, stop, hear}) {
  if (!("locks" in navigator) || !("BroadcastChannel" in window)) return connect();
  const known = new Set();  // a change of a plant is told to who has all of it
  sharing.channel = new BroadcastChannel("stream");
  sharing.hear = ({kind, told}) => {
    if (kind === "all") known.add(told.plant);
    if (kind !== "news" || known.has(told.plant)) hear(kind, told);
  };
  sharing.channel.onmessage = event => receive(event.data);
  const lead = (/** @type {object} */ options) => navigator.locks.request(LOCK, options, () => {
    sharing.isFirst = true;
    link.again = () => undefined;
    connect();
    return new Promise(() => undefined);
  }).catch(() => {  // another window has taken it over
    Object.assign(sharing, {isFirst: false, heard: performance.now()});
    stop();
    follow();
  });
  const follow = () => {
    link.again = () => post({kind: "again", told: null});
    post({kind: "ask", told: name});
    lead({});
  };
  setInterval(() => {
    const isStuck = performance.now() - sharing.heard > STUCK && !sharing.isFirst && !document.hidden;
    if (isStuck) lead({steal: true});
  }, STUCK);
  follow();
}
