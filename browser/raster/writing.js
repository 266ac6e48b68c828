// Characters: letters, mosaics and glyphs, in cells that follow each other as docs/SKETCH.md has it.

import { isAccent } from "../drawing/letters.js";
import { DOT, DotCursor, PROPORTIONAL, RIGHT, SIDE, advanceOf, cellOf } from "./cells.js";
import { COLUMNS, markOf, widthOf } from "./font.js";
import { ACROSS, OF_ENTRY, over } from "./measure.js";
import { columnsOf, isWritten, rowsOfEntry } from "./signs.js";

const BLANK = 0x20, MOST_IN_LINE = 1000;
const isBlank = ({ set, character }) => character === BLANK && isWritten(set);

// The columns that a sign leaves out on its left, and those that it has: of letters in proportional spacing.
const extentOf = (set, rows, cell) => (
  cell.spacing !== PROPORTIONAL || !isWritten(set) || !rows ? [0, COLUMNS - 1] : widthOf(rows));
const moved = (rows, by) => rows.map((row) => row.map((_, k) => k + by < row.length ? row[k + by] : 0));

class DotWriting {
  constructor(scale, put, characterAt) {
    Object.assign(this, { scale, put, characterAt, cursor: new DotCursor() });
    Object.assign(this, { number: 0, inWord: -2, accent: null, last: null });
  }

  // An accent with no letter after it stands alone, where the cursor is.
  flush() {
    const { accent } = this;
    this.accent = null;
    if (accent) this.place("supplementary", accent.character, markOf(accent.character), accent.colour, accent.text);
  }

  character(entry) {
    this.last = entry;
    const cell = cellOf(entry.text);
    this.take(entry.pen, cell);
    if (!this.isWithin(entry, cell)) return;
    if (isAccent(entry)) {
      this.flush();
      this.accent = entry;
      return;
    }
    const rows = rowsOfEntry(entry, this.accent ? this.accent.character : 0);
    if (isWritten(entry.set)) this.accent = null;
    else this.flush();
    this.cursor.step(cell, this.place(entry.set, entry.character, rows, entry.colour, entry.text));
  }

  move(entry) {
    this.flush();
    const cell = cellOf(entry.text);
    this.take(entry.pen, cell);
    this.cursor.move(entry, cell);
  }

  // The last character again, up to the end of the line.
  toEnd({ pen, colour, text }) {
    if (!this.last) return;
    const cell = cellOf(text), { set, character } = this.last;
    this.take(pen, cell);
    this.cursor.wrap(cell, cell.wide);
    const again = { kind: "CHAR", set, character, pen: { at: "after", point: null }, colour, text };
    for (let count = 0; count < MOST_IN_LINE; count++) {
      if (cell.wide <= 0 || cell.path !== RIGHT || !this.cursor.fits(cell.wide)) break;
      this.character(again);
    }
  }

  take(pen, cell) {
    if (pen.at === "after" && this.cursor.known) return;
    this.flush();
    this.cursor.take(pen, cell);
  }

  isWithin(entry, cell) {
    let { wide } = cell;
    if (entry.text.wrap && isBlank(entry)) {
      if (cell.path === RIGHT && !this.cursor.fits(wide)) return false;
    } else if (entry.text.wrap) {
      if (this.inWord !== this.number - 1 || entry.pen.at !== "after") wide = Math.max(wide, this.word(this.number));
      this.inWord = this.number;
    }
    this.cursor.wrap(cell, wide);
    return !this.cursor.scrolled;
  }

  // How wide the word is that an entry begins; of a long one, more than the side of the unit screen.
  word(number) {
    let start = 0, total = 0;
    for (let at = number, entry = this.characterAt(at); entry && total <= SIDE; entry = this.characterAt(++at)) {
      const cell = cellOf(entry.text), isFirst = at === number;
      if (!entry.text.wrap || isBlank(entry) || cell.path !== RIGHT || !(entry.pen.at === "after" || isFirst)) break;
      if (isAccent(entry)) continue;
      total = start + cell.wide;
      start += advanceOf(cell, columnsOf(entry));
    }
    return total;
  }

  // Puts a sign where the cursor is; how many columns it has.
  place(set, code, rows, colour, text) {
    const cell = cellOf(text), { scale } = this, [skipped, columns] = extentOf(set, rows, cell);
    const on = (length, dots) => over(length * dots, ACROSS);
    const at = { x: on(this.cursor.x, scale.wide), y: on(this.cursor.y, scale.high), wide: on(cell.wide, scale.wide),
      high: on(cell.high, scale.high), rotation: cell.rotation };
    const counted = OF_ENTRY + (over(Math.abs(at.wide), DOT) + 1) * (over(Math.abs(at.high), DOT) + 1);
    const shown = skipped ? moved(rows, skipped) : rows;
    if (at.wide && at.high) this.put({ set, code, rows: shown, at, colour, text, counted });
    return columns;
  }
}

export { DotWriting };
