// The letters of the raster as dots: those of the table, and letters with an accent, which are composed of both.

import { MARKS, SIGNS } from "./font_table.js";

const COLUMNS = 6, ROWS = 10, STEP = 8, LETTER = 5, BELOW = [0x4b, 0x4c, 0x4e];
const DOTLESS = { i: "\u0131", j: "\u0237" }, BLOCK = "\u2588", UNKNOWN = "\u25a1";

// The letters of a table: ten rows each, the lowest first, of six columns.
function tableOf(lines) {
  const found = new Map();
  for (let start = 0; start < lines.length; start += ROWS + 2) {
    const head = lines[start], rows = lines.slice(start + 1, start + 1 + ROWS).reverse();
    for (let left = 0; left < head.length; left += STEP) {
      const name = head.slice(left, left + STEP).trim();
      found.set(name === "space" ? " " : name, rows.map((row) => (
        Uint8Array.from({ length: COLUMNS }, (_, k) => Number(k < LETTER && row[left + k] === "#")))));
    }
  }
  return found;
}

const signs = tableOf(SIGNS), marks = tableOf(MARKS);
const markOf = (accent) => marks.get(accent.toString(16));
const isBlankRow = (row) => !row.includes(1);
const BLANK_ROW = new Uint8Array(COLUMNS), known = new Map();

// A letter below an accent: i and j lose their dot, and a tall letter its third row.
function underAccent(sign, base) {
  const rows = DOTLESS[sign] ? signs.get(DOTLESS[sign]) : base;
  return isBlankRow(rows[8]) && isBlankRow(rows[7]) ? rows : [...rows.slice(0, 7), rows[8], BLANK_ROW, BLANK_ROW];
}

function compose(sign, accent) {
  const block = () => Array.from({ length: ROWS }, () => new Uint8Array(COLUMNS).fill(1));
  const base = sign === BLOCK ? block() : signs.get(sign) || signs.get(UNKNOWN);
  if (!accent) return base;
  const rows = BELOW.includes(accent) ? base : underAccent(sign, base), mark = markOf(accent);
  return rows.map((row, at) => row.map((dot, k) => dot | mark[at][k]));
}

// The rows of a sign with an accent by its code, or without one.
function rowsOf(sign, accent = 0) {
  const key = `${accent} ${sign}`;
  if (!known.has(key)) known.set(key, compose(sign, accent));
  return known.get(key);
}

// The first column that has a dot, and how many columns there are from there; three of a blank.
function widthOf(rows) {
  const used = Array.from({ length: COLUMNS }, (_, k) => rows.some((row) => row[k]));
  if (!used.includes(true)) return [0, 3];
  return [used.indexOf(true), used.lastIndexOf(true) - used.indexOf(true) + 1];
}

export { COLUMNS, ROWS, markOf, rowsOf, widthOf };
