// Pels, and what these sweep as they go along lines: areas, and the dashes of broken ones.

import { WIDTH, between, distance, filledWeight, lengthOf, num } from "./measure.js";
import { Straight } from "./curves.js";

function sideOf(size, least) {
  if (!size) return [-least / 2, least / 2];
  return size > 0 ? [0, Math.max(size, least)] : [Math.min(size, -least), 0];
}

function pelOf(size, least) {
  const [[left, right], [low, high]] = size.map((part) => sideOf(lengthOf(part), least));
  return { left, top: -high, right, bottom: -low, wide: right - left, high: -low + high };
}

const spot = (place, by = [0, 0]) => `${num(place[0] + by[0])} ${num(place[1] + by[1])}`;

// The area of a piece that doesn't turn back.
function sweptPath(piece, pel) {
  const [a, b] = piece.start, [c, d] = piece.end;
  if (a === c || b === d) {
    const [left, top] = [Math.min(a, c) + pel.left, Math.min(b, d) + pel.top];
    const [right, bottom] = [Math.max(a, c) + pel.right, Math.max(b, d) + pel.bottom];
    return `M${num(left)} ${num(top)}H${num(right)}V${num(bottom)}H${num(left)}Z`;
  }
  const corners = [[pel.left, pel.bottom], [pel.left, pel.top], [pel.right, pel.top], [pel.right, pel.bottom]];
  const first = c > a ? (d > b ? 1 : 0) : (d > b ? 2 : 3);
  const [behind, one, ahead, other] = [...corners.slice(first), ...corners.slice(0, first)];
  const { start, end } = piece;
  if (piece instanceof Straight) {
    return `M${spot(start, behind)}L${spot(start, one)}L${spot(end, one)}L${spot(end, ahead)}L${spot(end, other)}`
      + `L${spot(start, other)}Z`;
  }
  const there = piece.moved(one), back = piece.reversed().moved(other);
  return `M${spot(start, behind)}L${spot(there.start)}${there.path()}L${spot(end, ahead)}L${spot(back.start)}`
    + `${back.path()}Z`;
}

function sweep(pieces, pel) {
  const parts = [], extent = [0, 0, 0];
  for (const each of pieces) {
    for (const piece of each.monotone()) {
      parts.push(sweptPath(piece, pel));
      const across = Math.min(Math.abs(piece.end[0] - piece.start[0]), WIDTH);
      const down = Math.min(Math.abs(piece.end[1] - piece.start[1]), WIDTH);
      extent[0] += each instanceof Straight ? 6 : 24;
      extent[1] += across + down + pel.wide + pel.high;
      extent[2] += (across + pel.wide) * (down + pel.high);
    }
  }
  return { path: parts.join(""), weight: filledWeight(extent) };
}

// The side of the pel along a line: its width where the line goes across at least as far as up or down.
const unitOf = (start, end, pel) => (
  Math.abs(end[0] - start[0]) >= Math.abs(end[1] - start[1]) ? pel.wide : pel.high);

const unitOfPiece = (piece, pel) => (
  piece instanceof Straight ? unitOf(piece.start, piece.end, pel) : Math.max(pel.wide, pel.high));

// The parts of the pieces on which the pen is down.
function dashed(pieces, pel, dashes) {
  const parts = [];
  let number = 0, left = dashes[0];
  for (const piece of pieces) {
    let at = piece.start;
    for (const place of piece.places()) {
      const far = distance(at, place), unit = unitOf(at, place, pel);
      let done = 0;
      while (far - done > left * unit) {
        const begin = done;
        done += left * unit;
        if (number % 2 === 0) parts.push(new Straight(between(at, place, begin / far), between(at, place, done / far)));
        number = (number + 1) % dashes.length;
        left = dashes[number];
      }
      if (number % 2 === 0) parts.push(new Straight(far ? between(at, place, done / far) : at, place));
      left -= (far - done) / unit;
      at = place;
    }
  }
  return parts;
}

export { dashed, pelOf, sweep, unitOfPiece };
