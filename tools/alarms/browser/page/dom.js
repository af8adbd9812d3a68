// The elements of the page, by their ids.

/** The element of an id that alarms.html has. */
export function $(/** @type {string} */ id) {
  return /** @type {HTMLElement} */ (document.getElementById(id));
}

/** A field of a form: what is typed or chosen there is its `value`. */
export function field(/** @type {string} */ id) {
  return /** @type {HTMLInputElement} */ (document.getElementById(id));
}

/** A list of options. */
export function choice(/** @type {string} */ id) {
  return /** @type {HTMLSelectElement} */ (document.getElementById(id));
}

/** A dialog. */
export function dialog(/** @type {string} */ id) {
  return /** @type {HTMLDialogElement} */ (document.getElementById(id));
}

/** The children of an element, which are of the page and so are HTML's. */
export function childrenOf(/** @type {Element} */ element) {
  return /** @type {HTMLElement[]} */ ([...element.children]);
}

/** The elements that fit a selector within another one. */
export function allOf(/** @type {string} */ selector, /** @type {ParentNode} */ within = document) {
  return /** @type {HTMLElement[]} */ ([...within.querySelectorAll(selector)]);
}

/** What an event came to, or the nearest element around it that fits a selector. */
export function target(/** @type {Event} */ event, /** @type {string} */ selector = "*") {
  return /** @type {HTMLElement | null} */ (/** @type {Element} */ (event.target).closest(selector));
}

/** Puts a text into an element, where it is another one. */
export function put(/** @type {Element} */ element, /** @type {string} */ text) {
  if (element.textContent !== text) element.textContent = text;
}

/**
 * A new element.
 * @param {string} name the element's
 * @param {object} [more] its properties
 */
export function made(name, more) {
  return Object.assign(document.createElement(name), more);
}

/** A button that sends no form. */
export function button(/** @type {object} */ more = {}) {
  return /** @type {HTMLButtonElement} */ (made("button", {type: "button", ...more}));
}

/** The shape and number of a priority. */
export function mark(/** @type {number | string} */ priority) {
  const template = /** @type {HTMLTemplateElement} */ (document.getElementById(`mark-${priority}`));
  return /** @type {Element} */ (template.content.firstElementChild).cloneNode(true);
}
