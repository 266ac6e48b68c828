// Areas, by the even-odd rule at the middles of dots.

import { HALF, OF_ROW, UNIT, dotsOf, firstAt, over } from "./measure.js";

function addEdge(low, top, grid, crossings) {
  const across = top[0] - low[0], up = top[1] - low[1], begin = Math.max(firstAt(low[1]), 0);
  const end = Math.min(firstAt(top[1]), grid.high), step = across * UNIT, divisor = up * UNIT;
  let before = (HALF - low[0]) * up - across * (UNIT * begin + HALF - low[1]);
  for (let row = begin; row < end; row++) {
    (crossings[row] = crossings[row] || []).push(-over(before, divisor));
    before -= step;
  }
}

function inside(points, grid) {
  const crossings = [], spans = [];
  let pairs = 0, a = points[points.length - 1];
  for (const b of points) {
    if (a[1] !== b[1]) addEdge(...(a[1] < b[1] ? [a, b] : [b, a]), grid, crossings);
    a = b;
  }
  crossings.forEach((found, row) => {
    found.sort((one, other) => one - other);
    pairs += found.length / 2;
    for (let at = 0; at < found.length; at += 2) {
      const start = Math.max(found[at], 0), end = Math.min(found[at + 1], grid.wide);
      if (start < end) spans.push(row, start, end);
    }
  });
  return { spans, counted: OF_ROW * (points.length + pairs) + dotsOf(spans) };
}

// A filled rectangle, each of whose sides is a dot long at least.
function filledBox(a, b, grid) {
  const left = Math.min(a[0], b[0]), low = Math.min(a[1], b[1]), spans = [];
  const wide = Math.max(Math.abs(a[0] - b[0]), UNIT), high = Math.max(Math.abs(a[1] - b[1]), UNIT);
  const start = Math.max(firstAt(left), 0), end = Math.min(firstAt(left + wide), grid.wide);
  const top = Math.min(firstAt(low + high), grid.high);
  for (let row = Math.max(firstAt(low), 0); row < top && start < end; row++) spans.push(row, start, end);
  return { spans, counted: OF_ROW * (4 + spans.length / 3) + dotsOf(spans) };
}

export { filledBox, inside };
