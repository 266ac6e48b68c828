// What a pel sweeps along lines, and the dashes of broken ones.

import { HALF, OF_ROW, UNIT, dotsOf, firstAt, modulo, over, overUp } from "./measure.js";

// No line or dash is added to a part of so many spans.
const DASHES = [null, [1, 2], [5, 3], [5, 2, 1, 2]], MOST_SPANS = 4096;

function addBox(a, b, box, grid, spans) {
  const start = Math.max(firstAt(Math.min(a[0], b[0]) + box.left), 0);
  const end = Math.min(firstAt(Math.max(a[0], b[0]) + box.right), grid.wide);
  if (start >= end) return;
  const low = Math.max(firstAt(Math.min(a[1], b[1]) + box.low), 0);
  const top = Math.min(firstAt(Math.max(a[1], b[1]) + box.high), grid.high);
  for (let row = low; row < top; row++) spans.push(row, start, end);
}

function addSloping(from, to, box, grid, spans) {
  const [a, b] = from[1] > to[1] ? [to, from] : [from, to], across = b[0] - a[0], up = b[1] - a[1];
  const divisor = UNIT * up, left = (a[0] + box.left - HALF) * up, right = (a[0] + box.right - HALF) * up;
  const top = Math.min(firstAt(b[1] + box.high), grid.high);
  for (let row = Math.max(firstAt(a[1] + box.low), 0); row < top; row++) {
    const middle = UNIT * row + HALF - a[1], isOpen = middle - box.high >= 0;
    const begin = Math.max(middle - box.high, 0), end = Math.min(middle - box.low, up);
    let start, high;
    if (across > 0) {
      const low = left + begin * across;
      high = right + end * across;
      start = isOpen ? over(low, divisor) + 1 : overUp(low, divisor);
    } else {
      high = right + begin * across;
      start = overUp(left + end * across, divisor);
    }
    start = Math.max(start, 0);
    const stop = Math.min(overUp(high, divisor), grid.wide);
    if (start < stop) spans.push(row, start, stop);
  }
}

// What the pel paints along these segments, and how much that counts, in parts: one line may be 256 dashes of 200 spans
// each.
function* swept(segments, box, grid) {
  let spans = [], counted = 0;
  for (const [start, end] of segments) {
    if (spans.length >= 3 * MOST_SPANS) {
      yield { spans, counted: counted + dotsOf(spans) };
      [spans, counted] = [[], 0];
    }
    const before = spans.length;
    (start[0] === end[0] || start[1] === end[1] ? addBox : addSloping)(start, end, box, grid, spans);
    counted += OF_ROW * (1 + (spans.length - before) / 3);
  }
  yield { spans, counted: counted + dotsOf(spans) };
}

const onLine = (start, end, at, long) => start.map((from, k) => from + over(2 * (end[k] - from) * at + long, 2 * long));

function* dashesOf(start, end, at, dashes, unit) {
  const long = Math.max(Math.abs(end[0] - start[0]), Math.abs(end[1] - start[1]), 1);
  let down = -at;
  while (down < long) {
    for (let number = 0; number < dashes.length; number += 2) {
      const up = down + (dashes[number] - 1) * unit;
      if (down < long && up >= 0) {
        yield [onLine(start, end, Math.max(down, 0), long), onLine(start, end, Math.min(up, long), long)];
      }
      down += (dashes[number] + dashes[number + 1]) * unit;
    }
  }
}

// What the pen is led along, from point to point: all of it, or the dashes.
function* segmentsOf(points, box, word) {
  const dashes = DASHES[word & 3];
  let at = 0, unit = 0;
  for (let number = 0; number + 1 < points.length; number++) {
    const start = points[number], end = points[number + 1];
    if (!dashes) {
      yield [start, end];
      continue;
    }
    const across = Math.abs(end[0] - start[0]), up = Math.abs(end[1] - start[1]);
    const side = across >= up ? box.right - box.left : box.high - box.low;
    at = unit ? over(at * side, unit) : 0;
    unit = side;
    yield* dashesOf(start, end, at, dashes, unit);
    at = modulo(at + Math.max(across, up), dashes.reduce((sum, each) => sum + each) * unit);
  }
}

export { segmentsOf, swept };
