// Cells of characters in whole numbers, and where the next one is, by the rules of docs/SKETCH.md. Lengths and places
// are in sixtieths of a step of points, in which all named sizes and spacings are whole.

import { ACROSS, ONE, UP, over } from "./measure.js";

const PART = 60, SIDE = ONE * PART, DOT = SIDE / ACROSS, TOP = DOT * UP;
const SIZES = { small: [SIDE / 80, SIDE / 128 * 5], medium: [SIDE / 32, SIDE / 64 * 3],
  normal: [SIDE / 40, SIDE / 128 * 5], tall: [SIDE / 40, SIDE / 64 * 5], double: [SIDE / 20, SIDE / 64 * 5] };
const SPACINGS = [4, 5, 6, 4], PROPORTIONAL = 3, RIGHT = 0, LEFT = 1, UPWARD = 2, FIRST_OF_APS = 0x20;
const SCREEN_FIELD = [0, 0, SIDE, TOP], NOWHERE = { x: 0, y: 0, known: false, scrolled: false, field: SCREEN_FIELD };
const cells = new WeakMap();

// The cell of a text look, which is made once for each object.
function cellOf(text) {
  if (!cells.has(text)) {
    const [wide, high] = text.given ? text.given.map((side) => side * PART) : SIZES[text.size], [first] = text.words;
    cells.set(text, { wide, high, rotation: first & 3, path: first >> 2 & 3, spacing: first >> 4 & 3,
      scroll: text.scroll });
  }
  return cells.get(text);
}

const spaced = (cell, length) => over(length * SPACINGS[cell.spacing], 4);

function advanceOf(cell, columns) {
  const isByLetters = cell.spacing === PROPORTIONAL && (cell.path === RIGHT || cell.path === LEFT);
  return isByLetters ? over(cell.wide * (columns + 1), 6) : spaced(cell, cell.wide);
}

// The place of the next character: the lower left corner of its cell.
class DotCursor {
  constructor() {
    this.putBack(NOWHERE);
  }

  saved() {
    const { x, y, known, scrolled, field } = this;
    return { x, y, known, scrolled, field };
  }

  putBack(saved) {
    Object.assign(this, saved);
  }

  enterGlyph() {
    this.putBack({ ...NOWHERE, known: true, field: [0, 0, SIDE, SIDE] });
  }

  take(pen, cell) {
    if (pen.point) {
      [this.x, this.y] = pen.point.map((part) => part * PART);
      this.scrolled = false;
    } else if (!this.known) {
      this.home(cell);
    }
    this.known = true;
  }

  home(cell) {
    this.x = this.field[0];
    this.y = this.field[3] - Math.abs(cell.high);
    this.scrolled = false;
  }

  lose() {
    this.known = false;
  }

  setField(corners) {
    this.field = SCREEN_FIELD;
    if (corners.length) {
      const [[a, b], [c, d]] = corners;
      this.field = [Math.min(a, c), Math.min(b, d), Math.max(a, c), Math.max(b, d)].map((side) => side * PART);
    }
    this.lose();
  }

  fits(wide) {
    return this.x + wide <= this.field[2] + DOT;
  }

  // Goes to the next line where a cell or a word, which is so wide, leaves the field.
  wrap(cell, wide) {
    const hasRoom = wide <= this.field[2] - this.field[0] + DOT;
    if (cell.path !== RIGHT || this.x <= this.field[0] || this.fits(hasRoom ? wide : cell.wide)) return;
    this.x = this.field[0];
    this.down(cell, Math.abs(cell.high));
  }

  down(cell, high) {
    const low = this.field[1] - DOT, wasWithin = this.y >= low;
    this.y -= high;
    if (wasWithin && this.y < low) {
      this.scrolled = cell.scroll;
      if (!cell.scroll) this.y = this.field[3] - Math.abs(cell.high);
    }
  }

  step(cell, columns) {
    if (cell.path === RIGHT) this.x += advanceOf(cell, columns);
    else if (cell.path === LEFT) this.x -= advanceOf(cell, columns);
    else if (cell.path === UPWARD) this.y += spaced(cell, cell.high);
    else this.y -= spaced(cell, cell.high);
  }

  move({ move, bytes }, cell) {
    if (move === "APF") {
      this.x += spaced(cell, cell.wide);
      this.wrap(cell, cell.wide);
    } else if (move === "APB") {
      this.x -= spaced(cell, cell.wide);
    } else if (move === "APD") {
      this.down(cell, cell.high);
    } else if (move === "APU") {
      this.y += cell.high;
      this.scrolled = this.scrolled && this.y < this.field[1] - DOT;
    } else if (move === "APR") {
      this.x = this.field[0];
    } else if (move === "APH") {
      this.home(cell);
    } else {
      this.x = this.field[0] + (bytes[1] - FIRST_OF_APS) * cell.wide;
      this.y = this.field[3] - (bytes[0] - FIRST_OF_APS + 1) * cell.high;
      this.scrolled = false;
    }
  }
}

export { DOT, DotCursor, PROPORTIONAL, RIGHT, SIDE, advanceOf, cellOf };
