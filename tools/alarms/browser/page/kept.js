// What this browser keeps: between two visits, or for as long as a window is open.

/**
 * A text that is kept, or nothing where the browser keeps none.
 * @param {string} name
 * @param {Storage} [place] the window's own where it is sessionStorage
 * @returns {string | null}
 */
export function kept(name, place = localStorage) {
  try {
    return place.getItem(name);
  } catch (error) {
    return null;
  }
}

/**
 * Keeps a text, where the browser keeps any.
 * @param {string} name
 * @param {string} value
 * @param {Storage} [place]
 */
export function keep(name, value, place = localStorage) {
  try {
    place.setItem(name, value);
  } catch (error) {
    // it is gone with the page
  }
}
