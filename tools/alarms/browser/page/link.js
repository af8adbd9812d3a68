// How alm_browser was last heard.

/** A signal that ends a request without a reply after some milliseconds. */
export function within(/** @type {number} */ patience) {
  const control = new AbortController();
  setTimeout(() => control.abort(new DOMException("no reply", "TimeoutError")), patience);
  return control.signal;
}

/** What a reply that refuses says; nothing where it isn't alm_browser's. */
export async function wordsOf(/** @type {Response} */ reply) {
  const isPlain = (reply.headers.get("Content-Type") ?? "").startsWith("text/plain");
  return isPlain ? (await reply.text()).trim().slice(0, 150) : "";
}

/** When it was heard; whether and why it lets nobody in; and what begins the stream again. */
export const link = {
  heard: performance.now(), signedOut: false, refused: "", again: /** @type {() => void} */ (() => undefined),
};
