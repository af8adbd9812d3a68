// The words of another language by those of English. alm_browser serves its file of words in the place of this one.

/** @type {Record<string, string>} */
export const told = {};
