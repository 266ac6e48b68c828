// The raster of a page: which dots of 256 x 200 its entries paint, by the rule of docs/RASTER.md. It is what
// python/naplps/dots makes of the same entries, dot for dot; a test compares the two.

import { glyphSpans, letterSpans, mosaicSpans, underlineSpans, wholeSpans } from "./raster/cell_dots.js";
import { DOT } from "./raster/cells.js";
import {
  BLACK, Canvas, DIRECT, HALF_TONE, MARK, backInk, colourOf, frontInk, linePattern, rgbOf, tileOf,
} from "./raster/canvas.js";
import { rowsOf } from "./raster/font.js";
import { ACROSS, MOST_COUNTED, OF_ENTRY, SCREEN, UP, over } from "./raster/measure.js";
import { PAGE, edgeOf, isFilled, painted } from "./raster/shapes.js";
import { isWritten } from "./raster/signs.js";
import { DotWriting } from "./raster/writing.js";

const TO_BLACK = [1, 7], TO_COLOUR = [2, 5, 6], NOTHING = 0, DRAWN = 1, EDGE = 2, BOX = rowsOf("\u25a1");
// How much is kept of pictures of glyphs and masks; each row counts as its dots and so many more.
const MOST_KEPT = 1 << 22, OF_KEPT_ROW = 256;
const uncounted = (spans) => ({ spans, counted: 0 });
const hasEdge = (entry) => isFilled(entry) && (entry.texture.word & 4) !== 0;

// Paints shapes and characters at a scale: the page, a glyph or a mask.
class Painter {
  constructor(scale, canvas, entries) {
    Object.assign(this, { scale, canvas, entries });
    this.writing = new DotWriting(scale, (sign) => this.put(sign), (number) => (
      number < entries.length && entries[number].kind === "CHAR" ? entries[number] : null));
  }

  paint(number, entry) {
    const { writing } = this, { kind } = entry;
    writing.number = number;
    if (kind === "CHAR") return writing.character(entry);
    if (kind === "MOVE") return writing.move(entry);
    if (kind === "TO-EOL") return writing.toEnd(entry);
    writing.flush();
    if (entry.pel) this.shape(entry);
    else if (kind === "FIELD") writing.cursor.setField(entry.points);
    else if (kind === "CLEAR" || kind === "RESET") {
      if (kind === "RESET" && entry.words[1] & 1) writing.cursor.setField([]);
      writing.cursor.lose();
    }
    return undefined;
  }

  // The dots of a sign, which is no glyph of the page, and of the line below it.
  signSpans({ set, code, rows, at, text }) {
    const { grid } = this.scale;
    if (set === "mosaic") return [mosaicSpans(at, code, text.underline, grid), []];
    const line = text.underline && isWritten(set) ? underlineSpans(at, grid) : [];
    return [letterSpans(at, set === "drcs" ? BOX : rows, grid), line];
  }
}

// The rows of dots of a canvas, each 1 where it has the value.
function rowsThatAre(value, { inks, grid: { wide, high } }) {
  if (!inks.includes(value)) return new Array(high).fill(new Uint8Array(wide));
  const dots = new Uint8Array(inks.length);
  for (let at = 0; at < dots.length; at++) dots[at] = Number(inks[at] === value);
  return Array.from({ length: high }, (_, row) => dots.subarray(row * wide, (row + 1) * wide));
}

// Paints a glyph or a mask, all in what uses it.
class DefinitionPainter extends Painter {
  constructor(grid, entries) {
    super({ ...grid, grid }, new Canvas(grid, NOTHING, Uint8Array), entries);
    this.writing.cursor.enterGlyph();
  }

  shape(entry) {
    this.canvas.paintParts(painted(entry, this.scale), DRAWN);
    if (hasEdge(entry)) this.canvas.paintParts(edgeOf(entry, this.scale), EDGE);
  }

  put(sign) {
    const [spans, line] = this.signSpans(sign);
    this.canvas.paint({ spans, counted: sign.counted }, DRAWN);
    this.canvas.paint(uncounted(line), DRAWN);
  }

  // Its rows of what is drawn and of what is edge, and what it counts; no entry is painted once so much was counted.
  picture(body, most) {
    const { canvas } = this;
    for (const [number, entry] of body) {
      if (canvas.counted >= most) break;
      canvas.counted += OF_ENTRY;
      this.paint(number, entry);
    }
    this.writing.flush();
    return { drawn: rowsThatAre(DRAWN, canvas), edge: rowsThatAre(EDGE, canvas), counted: canvas.counted };
  }
}

class PagePainter extends Painter {
  constructor(entries) {
    super(PAGE, new Canvas(SCREEN, BLACK), entries);
    Object.assign(this, { mark: 0, glyphs: new Map(), masks: new Map(), pictures: new Map(), kept: 0 });
  }

  shape(entry) {
    const { canvas, mark } = this, front = frontInk(entry.colour) | mark, behind = backInk(entry.colour);
    const pattern = isFilled(entry) ? this.pattern(entry.texture) : null;
    for (const part of painted(entry, this.scale)) {
      if (pattern && behind !== null) canvas.paint(uncounted(part.spans), behind | mark);
      canvas.paint(part, front, pattern);
    }
    if (hasEdge(entry)) canvas.paintParts(edgeOf(entry, this.scale), BLACK | mark);
  }

  // The pattern of an area; null where it is solid.
  pattern({ word, mask }) {
    const which = word >> 3 & 7, tile = tileOf(mask);
    if (!which) return null;
    if (which < 4) return linePattern(which, tile);
    const body = this.masks.get("ABCD"[which - 4]);
    return body ? this.picture(body, tile).drawn : HALF_TONE;
  }

  // The picture of a glyph or a mask, which counts whenever it is used.
  picture(body, grid) {
    const { canvas } = this, key = `${body.number} ${grid.wide} ${grid.high}`;
    let picture = this.pictures.get(key);
    if (!picture || canvas.counted + picture.counted >= MOST_COUNTED) {
      picture = new DefinitionPainter(grid, this.entries).picture(body.entries, MOST_COUNTED - canvas.counted);
      this.keep(key, grid, picture);
    }
    canvas.counted += picture.counted;
    return picture;
  }

  // Keeps a picture; those before it are dropped where that would be too much.
  keep(key, { wide, high }, picture) {
    const size = high * (wide + OF_KEPT_ROW);
    if (this.kept + size > MOST_KEPT) {
      this.pictures.clear();
      this.kept = 0;
    }
    this.pictures.set(key, picture);
    this.kept += size;
  }

  put(sign) {
    const { canvas, mark, scale: { grid } } = this, ground = backInk(sign.colour), first = frontInk(sign.colour);
    const [front, behind] = sign.text.reverse ? [ground === null ? BLACK : ground, first] : [first, ground];
    canvas.counted += sign.counted;
    if (behind !== null) canvas.paint(uncounted(wholeSpans(sign.at, grid)), behind | mark);
    const body = sign.set === "drcs" ? this.glyphs.get(sign.code) : null;
    if (body) {
      this.glyph(sign, body, front | mark);
      return;
    }
    for (const spans of this.signSpans(sign)) canvas.paint(uncounted(spans), front | mark);
  }

  // Paints a glyph, whose dots are about those of its cell.
  glyph(sign, body, ink) {
    const dots = (side) => Math.max(over(Math.abs(side) + DOT / 2, DOT), 1);
    const grid = { wide: dots(sign.at.wide), high: dots(sign.at.high) }, { drawn, edge } = this.picture(body, grid);
    for (const [rows, each] of [[drawn, ink], [edge, BLACK | this.mark]]) {
      this.canvas.paint(uncounted(glyphSpans(sign.at, rows, grid.wide, this.scale.grid)), each);
    }
  }
}

// Paints the entries of a page one after another.
class Raster {
  // `entries` are objects of the JSON of naplps-pages(1), as canonical.mjs and lines.mjs give them.
  constructor(entries) {
    this.entries = entries;
    this.page = new PagePainter(entries);
    Object.assign(this, { drawn: 0, map: new Map(), definition: null, body: [], bodies: 0, saved: null });
    this.colour = { kind: "own-start", value: null, addresses: [] };
  }

  get inks() {
    return this.page.canvas.inks;
  }

  // Whether the next entry is painted.
  get hasNext() {
    return this.drawn < this.entries.length && this.page.canvas.counted < MOST_COUNTED;
  }

  // Paints the next entry.
  next() {
    const number = this.drawn++;
    this.page.canvas.counted += OF_ENTRY;
    this.entry(number, this.entries[number]);
    if (!this.hasNext) this.page.writing.flush();
  }

  // Paints all.
  whole() {
    while (this.hasNext) this.next();
    this.page.writing.flush();
    return this;
  }

  entry(number, entry) {
    const { page } = this, { kind } = entry;
    if (entry.colour && !this.definition) this.colour = entry.colour;
    if (kind === "GLYPH" || kind === "MASK") {
      page.writing.flush();
      Object.assign(this, { definition: entry, body: [], saved: page.writing.cursor.saved() });
    } else if (kind === "END") {
      this.end();
    } else if (this.changes(entry)) {
      page.writing.flush();
    } else if (this.definition) {
      this.body.push([number, entry]);
    } else {
      if (kind === "CLEAR" || kind === "RESET") {
        page.writing.flush();
        this.clear(entry);
      }
      page.paint(number, entry);
    }
  }

  // Whether an entry changes the colours of what is there, or whether what comes blinks.
  changes({ kind, address, value }) {
    if (kind === "MAP") this.map.set(address, rgbOf(value));
    else if (kind === "BLINK-START" || kind === "BLINK-STOP") this.page.mark = kind === "BLINK-START" ? MARK : 0;
    else return kind === "BLINK" || kind === "BLINK-END";
    return true;
  }

  clear({ kind, words }) {
    const screen = kind === "CLEAR" ? TO_BLACK[0] : words[0] >> 3 & 7;
    if (TO_BLACK.includes(screen)) this.inks.fill(BLACK);
    else if (TO_COLOUR.includes(screen)) this.inks.fill(frontInk(this.colour) | this.page.mark);
  }

  end() {
    const { definition, page } = this;
    this.definition = null;
    if (!definition) return;
    page.writing.cursor.putBack(this.saved);
    const body = { number: this.bodies++, entries: this.body };
    if (definition.kind === "GLYPH") page.glyphs.set(definition.character, body);
    else page.masks.set(definition.mask, body);
  }
}

// The raster of a page with these entries: `inks`, row by row from the lowest; `map`, the colours that the page gave to
// addresses; and `drawn`, how many of the entries are painted.
const raster = (entries) => new Raster(entries).whole();

export { ACROSS, DIRECT, MARK, Raster, UP, colourOf, raster };
