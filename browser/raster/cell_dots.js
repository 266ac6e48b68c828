// The dots of a cell: which of them show a dot of a letter, a mosaic or a glyph.

import { COLUMNS, ROWS } from "./font.js";
import { over } from "./measure.js";
import { DOT } from "./cells.js";

const BLOCKS = [[16, 64], [4, 8], [1, 2]];
const sides = new Map(), MOST_SIDES = 4096;

// The dots of a side that begins so far in the dot 0, each with the column or row of so many that it shows; -1 is none.
function makeSide(phase, length, count, isWhole) {
  const size = Math.abs(length), scale = isWhole ? over(size, count * DOT) : 0, found = [];
  const spare = over(over(size, DOT) - scale * count, 2), last = over(Math.max(phase, phase + length), DOT) + 1;
  for (let dot = over(Math.min(phase, phase + length), DOT) - 1; dot <= last; dot++) {
    const away = dot * DOT + DOT / 2 - phase, at = length > 0 ? away : -away;
    if (at < 0 || at >= size) continue;
    const shown = scale ? over(over(at, DOT) - spare, scale) : over(at * count, size);
    found.push([dot, shown >= 0 && shown < count ? shown : -1]);
  }
  return found;
}

function sideOf(phase, length, count, isWhole) {
  const key = `${phase} ${length} ${count} ${isWhole}`;
  if (!sides.has(key)) {
    if (sides.size >= MOST_SIDES) sides.clear();
    sides.set(key, makeSide(phase, length, count, isWhole));
  }
  return sides.get(key);
}

// The dots of the raster that a cell has, as two sides, and whether that across shows the rows of the cell.
function sidesOf({ x, y, wide, high, rotation }, columns, rows, isWhole) {
  const across = rotation === 2 || rotation === 3 ? -wide : wide, up = rotation === 1 || rotation === 2 ? -high : high;
  const left = over(x, DOT), low = over(y, DOT), isTurned = rotation % 2 === 1;
  const byColumns = (phase) => sideOf(phase, across, columns, isWhole);
  const byRows = (phase) => sideOf(phase, up, rows, isWhole);
  const inX = x - left * DOT, inY = y - low * DOT;
  return { left, low, isTurned, across: isTurned ? byRows(inX) : byColumns(inX),
    up: isTurned ? byColumns(inY) : byRows(inY) };
}

// The spans of the dots that show one that is set, as far as they are on the grid.
function shownBy({ left, low, isTurned, across, up }, rows, grid) {
  const spans = [];
  for (const [dot, first] of up) {
    const row = dot + low;
    if (first < 0 || row < 0 || row >= grid.high) continue;
    let start = 0, end = null;
    for (const [at, second] of across) {
      if (second < 0 || !(isTurned ? rows[second][first] : rows[first][second])) continue;
      if (at !== end) {
        if (end !== null) addSpan(row, start + left, end + left, grid, spans);
        start = at;
      }
      end = at + 1;
    }
    if (end !== null) addSpan(row, start + left, end + left, grid, spans);
  }
  return spans;
}

function addSpan(row, from, to, grid, spans) {
  const start = Math.max(from, 0), end = Math.min(to, grid.wide);
  if (start < end) spans.push(row, start, end);
}

const letterSpans = (cell, rows, grid) => shownBy(sidesOf(cell, COLUMNS, ROWS, true), rows, grid);
const glyphSpans = (cell, rows, wide, grid) => shownBy(sidesOf(cell, wide, rows.length, false), rows, grid);
const wholeSpans = (cell, grid) => glyphSpans(cell, [[1]], 1, grid);

// The line below a letter: the lowest of its rows, over the whole width of the cell.
function underlineSpans(cell, grid) {
  const it = sidesOf(cell, 1, ROWS, true), name = it.isTurned ? "up" : "across";
  const rows = Array.from({ length: ROWS }, (_, row) => [row ? 0 : 1]);
  return shownBy({ ...it, [name]: it[name].map(([dot]) => [dot, 0]) }, rows, grid);
}

// A side without the first dot of each block, counted from where the cell begins.
function apartSide(side, isRows, { wide, high, rotation }) {
  const length = isRows ? high : wide, isBack = (isRows ? [1, 2] : [2, 3]).includes(rotation);
  const ordered = length > 0 !== isBack ? side : [...side].reverse();
  const firsts = new Set(ordered.filter(([, block], at) => !at || ordered[at - 1][1] !== block).map(([dot]) => dot));
  return side.map(([dot, block]) => [dot, firsts.has(dot) ? -1 : block]);
}

// The blocks of a mosaic, with a dot between them where they are apart.
function mosaicSpans(cell, code, isApart, grid) {
  const it = sidesOf(cell, 2, 3, false), rows = BLOCKS.map((row) => row.map((bit) => code & bit));
  if (isApart) {
    it.across = apartSide(it.across, it.isTurned, cell);
    it.up = apartSide(it.up, !it.isTurned, cell);
  }
  return shownBy(it, rows, grid);
}

export { glyphSpans, letterSpans, mosaicSpans, underlineSpans, wholeSpans };
