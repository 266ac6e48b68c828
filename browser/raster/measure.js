// Lengths of the raster, in whole numbers: docs/RASTER.md has what they mean.

const ONE = 1 << 23, ACROSS = 256, UP = 200, UNIT = ONE / ACROSS, HALF = UNIT / 2;
const MOST_COUNTED = 1 << 26, OF_ENTRY = 256, OF_ROW = 16;
const SCREEN = { wide: ACROSS, high: UP };

// Whole quotients, rounded down, of numbers that are exact: their quotient has no error of a whole one then.
const over = (number, by) => Math.floor(number / by);
const overUp = (number, by) => -Math.floor(-number / by);
const modulo = (number, by) => number - by * over(number, by);
// The number of the first dot whose middle is at this place or after it.
const firstAt = (at) => overUp(at - HALF, UNIT);
const nearestDots = (length) => Math.max(over(Math.abs(length) + HALF, UNIT), 1);

function side(length) {
  if (!length) return [1 - HALF, 1 + HALF];
  const size = nearestDots(length) * UNIT;
  return length > 0 ? [0, size] : [-size, 0];
}

function pelBox(pel) {
  const [left, right] = side(pel[0]), [low, high] = side(pel[1]);
  return { left, right, low, high };
}

// Spans are numbers, three for each: the row, the first dot, and the one after the last.
function dotsOf(spans) {
  let dots = 0;
  for (let at = 0; at < spans.length; at += 3) dots += spans[at + 2] - spans[at + 1];
  return dots;
}

export {
  ACROSS, HALF, MOST_COUNTED, OF_ENTRY, OF_ROW, ONE, SCREEN, UNIT, UP, dotsOf, firstAt, modulo, nearestDots, over,
  overUp, pelBox,
};
