// Colours, letters, and the cells in which these are written.

import { COLUMNS } from "../raster/font.js";
import { ADDRESS, HEIGHT, ONE, THIN, WIDTH } from "./measure.js";

const OWN = "#ffffff", BLACK = "#000000";
const FIRST = [
  "#000000", "#242424", "#494949", "#6d6d6d", "#929292", "#b6b6b6", "#dbdbdb", "#ffffff",
  "#0000ff", "#bf00ff", "#ff0080", "#ff4000", "#ffff00", "#40ff00", "#00ff80", "#00bfff"];
const direct = ([green, red, blue]) => `#${[red, green, blue].map((part) => (
  (part >> 8).toString(16).padStart(2, "0"))).join("")}`;
const inMap = (address) => `${ADDRESS}${address}`;
const backOf = ({ kind, addresses }) => kind === "pair" ? inMap(addresses[1]) : null;

function frontOf({ kind, value, addresses }) {
  if (kind === "direct") return direct(value);
  return addresses.length ? inMap(addresses[0]) : OWN;
}

const BLOCK = "\u2588", UNKNOWN = "\u25a1";
const MARKS = [..."\u0300\u0301\u0302\u0303\u0304\u0306\u0307\u0308\u0308\u030a\u0327\u0331\u030b\u0328\u030c"];
const ALONE = [..."`´^~¯˘˙¨¨˚¸_˝˛ˇ"];
const SUPPLEMENTARY = new Map();
for (const [first, signs] of [
  [0x21, "¡¢£$¥#§¤‘“«←↑→↓°±²³×µ¶·÷’”»¼½¾¿"], [0x41, ALONE], [0x50, "―¹®©™♪¬¦"],
  [0x60, "ΩÆÐªĦ\u25a1ĲĿŁØŒºÞŦŊŉĸæđðħıĳŀłøœßþŧŋ\u25a1"]]) {
  [...signs].forEach((sign, i) => SUPPLEMENTARY.set(first + i, sign));
}
const isAccent = ({ set, character }) => set === "supplementary" && character > 0x40 && character < 0x50;

function letterOf({ set, character }) {
  if (set === "primary") return character < 0x7f ? String.fromCharCode(character) : BLOCK;
  return character === 0x20 ? " " : SUPPLEMENTARY.get(character) || UNKNOWN;
}

const composed = (accent, base) => (
  base === " " ? ALONE[accent - 0x41] : (base + MARKS[accent - 0x41]).normalize("NFC"));

const SIZES = { small: [1 / 80, 5 / 128], medium: [1 / 32, 3 / 64], normal: [1 / 40, 5 / 128], tall: [1 / 40, 5 / 64],
  double: [1 / 20, 5 / 64] };
const SPACINGS = [1, 1.25, 1.5, 1], PROPORTIONAL = 3, RIGHT = 0, LEFT = 1, UP = 2;
const TOP = HEIGHT / WIDTH, DOT = THIN / WIDTH;
const SCREEN_FIELD = [0, 0, 1, TOP], NOWHERE = { x: 0, y: 0, known: false, scrolled: false, field: SCREEN_FIELD };
const cells = new WeakMap();

// The cell of a text look, which is made once for each object.
function cellOf(text) {
  let cell = cells.get(text);
  if (!cell) {
    const [wide, high] = text.given ? text.given.map((side) => side / ONE) : SIZES[text.size], [first] = text.words;
    const [rotation, path, kind] = [first & 3, first >> 2 & 3, first >> 4 & 3];
    const byLetters = kind === PROPORTIONAL && (path === RIGHT || path === LEFT);
    cell = { wide, high, rotation, path, spacing: SPACINGS[kind], byLetters, scroll: text.scroll };
    cells.set(text, cell);
  }
  return cell;
}

// How far the next character is from one with so many columns.
const advanceOf = ({ wide, spacing, byLetters }, columns) => (
  byLetters ? wide * (columns + 1) / COLUMNS : wide * spacing);
const isSameCell = (a, b) => a === b || Object.keys(a).every((name) => a[name] === b[name]);

class TextCursor {
  constructor() {
    this.putBack(NOWHERE);
  }

  saved() {
    const { x, y, known, scrolled, field } = this;
    return { x, y, known, scrolled, field };
  }

  putBack(saved) {
    Object.assign(this, saved);
  }

  enterGlyph() {
    this.putBack({ ...NOWHERE, known: true, field: [0, 0, 1, 1] });
  }

  take(pen, cell) {
    if (pen.point) {
      [this.x, this.y] = [pen.point[0] / ONE, pen.point[1] / ONE];
      this.scrolled = false;
    } else if (!this.known) {
      this.home(cell);
    }
    this.known = true;
  }

  home(cell) {
    this.x = this.field[0];
    this.y = this.field[3] - Math.abs(cell.high);
    this.scrolled = false;
  }

  lose() {
    this.known = false;
  }

  setField(corners) {
    if (corners.length) {
      const [[a, b], [c, d]] = corners;
      this.field = [Math.min(a, c), Math.min(b, d), Math.max(a, c), Math.max(b, d)].map((side) => side / ONE);
    } else {
      this.field = SCREEN_FIELD;
    }
    this.lose();
  }

  fits(wide) {
    return this.x + wide <= this.field[2] + DOT;
  }

  // Goes to the next line where a cell or a word, which is so wide, leaves the field; whether it did.
  wrap(cell, wide) {
    const hasRoom = wide <= this.field[2] - this.field[0] + DOT;
    if (cell.path !== RIGHT || this.x <= this.field[0] || this.fits(hasRoom ? wide : cell.wide)) return false;
    this.x = this.field[0];
    this.down(cell, Math.abs(cell.high));
    return true;
  }

  down(cell, high) {
    const low = this.field[1] - DOT, wasWithin = this.y >= low;
    this.y -= high;
    if (wasWithin && this.y < low) {
      this.scrolled = cell.scroll;
      if (!cell.scroll) this.y = this.field[3] - Math.abs(cell.high);
    }
  }

  // Advances along the path by a cell, or in proportional spacing by so many columns.
  step(cell, columns) {
    if (cell.path === RIGHT) this.x += advanceOf(cell, columns);
    else if (cell.path === LEFT) this.x -= advanceOf(cell, columns);
    else if (cell.path === UP) this.y += cell.high * cell.spacing;
    else this.y -= cell.high * cell.spacing;
  }

  move({ move, bytes }, cell) {
    if (move === "APF") {
      this.x += cell.wide * cell.spacing;
      this.wrap(cell, cell.wide);
    } else if (move === "APB") {
      this.x -= cell.wide * cell.spacing;
    } else if (move === "APD") {
      this.down(cell, cell.high);
    } else if (move === "APU") {
      this.y += cell.high;
      this.scrolled = this.scrolled && this.y < this.field[1] - DOT;
    } else if (move === "APR") {
      this.x = this.field[0];
    } else if (move === "APH") {
      this.home(cell);
    } else {
      this.x = this.field[0] + (bytes[1] - 0x20) * cell.wide;
      this.y = this.field[3] - (bytes[0] - 0x20 + 1) * cell.high;
      this.scrolled = false;
    }
  }
}

export {
  ALONE, BLACK, FIRST, RIGHT, TextCursor, advanceOf, backOf, cellOf, composed, direct, frontOf, inMap, isAccent,
  isSameCell, letterOf,
};
