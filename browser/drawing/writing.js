// Characters: letters in runs, mosaics, and the page's own glyphs.

import {
  HEIGHT, NOTHING, RUN, WIDTH, boxWeight, element, fine, letterWeight, num, outlinedWeight, plus, scaled,
} from "./measure.js";
import { COLUMNS } from "../raster/font.js";
import { columnsOf, isWritten } from "../raster/signs.js";
import { same } from "./curves.js";
import { blocksPath, numberOfBlocks } from "./mosaics.js";
import {
  ALONE, BLACK, RIGHT, TextCursor, advanceOf, inMap, backOf, cellOf, composed, frontOf, isAccent, isSameCell, letterOf,
} from "./letters.js";

const ADVANCE = 0.602, SIZE = 0.86, BASE = 0.22, MOST_IN_LINE = 1000, LEAST_COLUMNS = 3;
// The greatest number of bytes for a letter of a run, and for what is around a run.
const A_LETTER = 16, A_RUN = 1024;
// The same for a block of a mosaic, and for what is around a row of mosaics.
const A_BLOCK = 64, A_ROW = 256;
const isStraight = (cell, isMosaic) => (
  cell.path === RIGHT && cell.rotation === 0 && cell.spacing === 1 && (isMosaic || !cell.byLetters));
const isBlank = ({ set, character }) => character === 0x20 && isWritten(set);
const cellBox = (x, y, wide, high, fill) => element("rect", { x: num(Math.min(x, x + wide)),
  y: num(Math.min(y - high, y)), width: num(Math.abs(wide)), height: num(Math.abs(high)), fill });
const boxPath = (x, y, wide, high) => `M${num(x)} ${num(y)}h${num(wide)}v${num(high)}h${num(-wide)}z`;

class Writing {
  constructor(paper, characterAt) {
    Object.assign(this, { paper, characterAt, cursor: new TextCursor() });
    Object.assign(this, { inWord: -1, run: null, accent: null, last: null });
  }

  // Draws the letters that wait, before anything is drawn over them.
  flush() {
    if (this.accent !== null) this.endAccent();
    const run = this.run;
    this.run = null;
    if (run && run.cell.wide && run.cell.high) this.drawRun(run);
  }

  character(entry) {
    this.last = entry;
    const style = this.style(entry), { cell } = style;
    this.take(entry.pen, cell);
    if (!this.isWithin(entry, cell)) return;
    this.paper.spend(A_LETTER, style.weight);
    if (isAccent(entry)) {
      this.endAccent();
      this.paper.spend(A_RUN, RUN);
      this.accent = entry.character;
      return;
    }
    let columns = COLUMNS - 1;
    if (isWritten(entry.set)) {
      const sign = letterOf(entry), { accent } = this;
      this.accent = null;
      if (cell.byLetters) columns = columnsOf(entry, accent || 0);
      this.letter(style, accent === null ? sign : composed(accent, sign), columns);
    } else if (entry.set === "mosaic") {
      if (this.accent !== null) this.endAccent();
      this.mosaic(entry.character, style);
    } else {
      this.flush();
      this.sign(entry.character, style);
    }
    this.cursor.step(cell, columns);
  }

  // Goes to the next line where the character, or its word, leaves the field; whether it is drawn.
  isWithin(entry, cell) {
    let { wide } = cell;
    if (entry.text.wrap && isBlank(entry)) {
      if (cell.path === RIGHT && !this.cursor.fits(wide)) return false;
    } else if (entry.text.wrap) {
      const begins = this.inWord !== this.paper.entry - 1 || entry.pen.at !== "after";
      if (begins) wide = Math.max(wide, this.wordWidth(this.paper.entry));
      this.inWord = this.paper.entry;
    }
    if (this.cursor.wrap(cell, wide)) this.flush();
    return !this.cursor.scrolled;
  }

  // The width of the word that an entry begins, in sides of the unit screen; of a long one, above 1.
  wordWidth(number) {
    let width = 0, most = 0;
    for (let at = number, entry = this.characterAt(at); entry && most <= 1; entry = this.characterAt(++at)) {
      const cell = cellOf(entry.text), isFirst = at === number;
      if (!entry.text.wrap || isBlank(entry) || cell.path !== RIGHT || !(entry.pen.at === "after" || isFirst)) break;
      if (!isAccent(entry)) {
        most = width + cell.wide;
        width += advanceOf(cell, cell.byLetters ? columnsOf(entry) : 0);
      }
    }
    return most;
  }

  move(entry) {
    this.flush();
    const cell = cellOf(entry.text);
    this.take(entry.pen, cell);
    this.cursor.move(entry, cell);
  }

  // The last character again, up to the end of the line.
  toEnd({ pen, colour, text }) {
    if (!this.last) return;
    const cell = cellOf(text), { set, character } = this.last;
    this.take(pen, cell);
    if (this.cursor.wrap(cell, cell.wide)) this.flush();
    const again = { kind: "CHAR", set, character, pen: { at: "after", point: null }, colour, text };
    for (let count = 0; count < MOST_IN_LINE; count++) {
      if (cell.wide <= 0 || cell.path !== RIGHT || !this.cursor.fits(cell.wide)) break;
      this.character(again);
    }
  }

  take(pen, cell) {
    if (pen.at === "after" && this.cursor.known) return;
    this.flush();
    this.cursor.take(pen, cell);
  }

  style({ colour, text }) {
    const cell = cellOf(text), weight = letterWeight(cell.wide * WIDTH, cell.high * WIDTH);
    let ink = ["currentColor", null];
    if (!this.paper.open) {
      const ground = backOf(colour);
      ink = text.reverse ? [ground || BLACK, frontOf(colour)] : [frontOf(colour), ground];
    }
    return { cell, ink, underline: text.underline, weight };
  }

  corner(cell) {
    this.paper.reach(this.cursor.y + Math.max(cell.high, 0));
    return [this.cursor.x * WIDTH, (this.paper.open ? WIDTH : HEIGHT) - this.cursor.y * WIDTH];
  }

  letter(style, sign, columns, isCounted = false) {
    const [x, y] = this.corner(style.cell);
    if (this.joined(style, sign, x, y, false)) return;
    this.flush();
    if (!isCounted) this.paper.spend(A_RUN, RUN);
    this.run = { ...style, signs: [sign], entries: [this.paper.entry], x, y, isMosaic: false, columns };
  }

  mosaic(code, style) {
    const { cell, ink: [, ground] } = style, [x, y] = this.corner(cell);
    const box = boxWeight(cell.wide * WIDTH, cell.high * WIDTH);
    if (!cell.wide || !cell.high) {
      this.flush();
      return;
    }
    this.paper.spend(A_BLOCK * numberOfBlocks(code), ground ? box.map((part) => part * 2) : box);
    if (this.joined(style, code, x, y, true)) return;
    this.flush();
    this.paper.spend(A_ROW, NOTHING);
    this.run = { ...style, signs: [code], entries: [this.paper.entry], x, y, isMosaic: true };
  }

  // Whether a sign at this place continues the run; then it does.
  joined({ cell, ink, underline }, sign, x, y, isMosaic) {
    const { run } = this;
    if (!run || run.isMosaic !== isMosaic || !isStraight(cell, isMosaic)) return false;
    const isAlike = same(run.ink, ink) && run.underline === underline && isSameCell(run.cell, cell);
    const end = run.x + run.signs.length * run.cell.wide * WIDTH;
    if (!isAlike || Math.abs(end - x) >= 0.01 || Math.abs(run.y - y) >= 0.01) return false;
    run.signs.push(sign);
    run.entries.push(this.paper.entry);
    return true;
  }

  // An accent with no letter after it is drawn alone, where the cursor is.
  endAccent() {
    const { accent } = this;
    this.accent = null;
    if (accent !== null && this.last) this.letter(this.style(this.last), ALONE[accent - 0x41], COLUMNS - 1, true);
  }

  drawRun(run) {
    const { cell, ink: [, ground], signs, x, y, isMosaic } = run, wide = cell.wide * WIDTH, high = cell.high * WIDTH;
    const parts = ground ? [cellBox(x, y, wide * signs.length, high, ground)] : [];
    parts.push(...(isMosaic ? rowOf(run, wide, high) : lettersAndLine(run, wide, high)));
    const transform = `rotate(${-90 * cell.rotation} ${num(x)} ${num(y)})`;
    for (const part of parts) {
      const turned = cell.rotation && !isMosaic ? element("g", { transform }, [part]) : part;
      this.paper.putCounted(turned, { entries: run.entries, x, wide });
    }
  }

  sign(code, { cell, ink: [fore, ground] }) {
    const [x, y] = this.corner(cell), wide = cell.wide * WIDTH, high = cell.high * WIDTH;
    if (!wide || !high) return;
    if (ground) this.paper.put(cellBox(x, y, wide, high, ground), boxWeight(wide, high));
    this.glyph(code, x, y, wide, high, fore);
  }

  glyph(code, x, y, wide, high, color) {
    const glyph = this.paper.open ? undefined : this.paper.glyphs.get(code);
    if (glyph) {
      const [across, down] = [wide / WIDTH, high / WIDTH];
      const transform = `translate(${num(x)} ${num(y - high)}) scale(${fine(across)} ${fine(down)})`;
      const use = element("use", { href: `#${glyph.name}`, color, transform });
      this.paper.put(use, plus(RUN, scaled(glyph.weight, across, down)));
      return;
    }
    const d = boxPath(x + wide * 0.15, y - high * 0.85, wide * 0.7, high * 0.7);
    const shape = element("path", { d, fill: "none", stroke: color, "stroke-width": "2" });
    this.paper.put(shape, outlinedWeight([4, 2 * Math.abs(wide) + 2 * Math.abs(high), 0], 2, []));
  }
}

// The blocks of a row of mosaics.
function rowOf({ ink: [fill], signs, underline, x, y }, wide, high) {
  const d = blocksPath(signs, x, y, wide, high, underline);
  return d ? [element("path", { d, fill, "shape-rendering": "crispEdges" })] : [];
}

// The letters of a run and the line under them.
function lettersAndLine(run, wide, high) {
  const { ink: [fore], signs, underline, x, y } = run, text = signs.join("");
  const parts = /[^ ]/.test(text) ? [textOf(text, run, wide, high, fore)] : [];
  if (underline) {
    const d = `M${num(x)} ${num(y - 3)}h${num(wide * signs.length)}`;
    parts.push(element("path", { d, fill: "none", stroke: fore, "stroke-width": "3" }));
  }
  return parts;
}

// Where letters begin, and how wide each is: in proportional spacing as its place, or in the middle of that.
function placeOf({ cell, x, columns }, wide) {
  if (!cell.byLetters) return [x, wide];
  const [place, letter] = [columns, Math.max(columns, LEAST_COLUMNS)].map((each) => (each + 1) * wide / COLUMNS);
  return [x + (place - letter) / 2, letter];
}

// The letters of a run, stretched by a transform, which all viewers follow.
function textOf(text, run, wide, high, fill) {
  const { y, signs } = run;
  const size = Math.abs(high) * SIZE, [x, letter] = placeOf(run, wide), down = high > 0 ? 1 : -1;
  const transform = `matrix(${fine(letter / (ADVANCE * size))} 0 0 ${down} ${num(x)} ${num(y - high * BASE)})`;
  const textLength = num(ADVANCE * size * signs.length);
  return element("text", { transform, "font-size": num(size), textLength, fill, "xml:space": "preserve" }, [], text);
}

export { Writing };
