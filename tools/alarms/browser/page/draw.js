// When the page is drawn: soon after something changed, and not more often than it rests between.

// Milliseconds between two drawings.
const REST = 60;
const drawing = {due: 0, last: 0, parts: /** @type {(() => void)[]} */ ([])};

/** What draws the page, one after the other. */
export function drawBy(/** @type {(() => void)[]} */ ...parts) {
  drawing.parts = parts;
}

/** Something changed. */
export function touch() {
  if (!drawing.due) drawing.due = setTimeout(draw, Math.max(0, drawing.last + REST - performance.now()));
}

/** Draws now. */
export function draw() {
  clearTimeout(drawing.due);
  drawing.due = 0;
  drawing.last = performance.now();
  for (const part of drawing.parts) part();
}
