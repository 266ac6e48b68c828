// The drawing of a page in time: elements of SVG as JSON, each with the entry that it came with, and what changes the
// colours of what is there. It is what python/naplps/drawing makes of the same entries for a player, step for step, and
// has the same bounds; a test compares the two. Names are those of the modules there, which say why each is so.

import { ADDRESS, HEIGHT, MOST_DRAWN, MOST_POINTS, WIDTH } from "./drawing/measure.js";
import { BLACK, FIRST, inMap, direct, frontOf } from "./drawing/letters.js";
import { Full, Paper } from "./drawing/paper.js";
import { Shapes } from "./drawing/shapes.js";
import { Writing } from "./drawing/writing.js";

// What RESET's codes for the screen clear it to: black, or the colour in use.
const TO_BLACK = [1, 7], TO_COLOUR = [2, 5, 6];

class Walk {
  constructor(entries) {
    this.entries = entries;
    this.most = Math.min(entries.length, MOST_DRAWN);
    this.paper = new Paper();
    this.shapes = new Shapes(this.paper);
    this.writing = new Writing(this.paper, (number) => (
      number < this.most && entries[number].kind === "CHAR" ? entries[number] : null));
    Object.assign(this, { colour: { kind: "own-start", value: null, addresses: [] }, definition: null, saved: null });
  }

  // Draws what the limits allow; how many entries that were.
  draw() {
    let number = 0, points = 0;
    try {
      for (; number < this.most; number++) {
        this.paper.entry = number;
        points += (this.entries[number].points || []).length;
        if (points > MOST_POINTS) break;
        this.entry(this.entries[number]);
      }
    } catch (error) {
      if (!(error instanceof Full)) throw error;
    }
    this.writing.flush();
    return number;
  }

  entry(entry) {
    const { kind } = entry;
    if (!this.paper.open && entry.colour) this.colour = entry.colour;
    if (kind === "CHAR") this.writing.character(entry);
    else if (kind === "TO-EOL") this.writing.toEnd(entry);
    else if (kind === "MOVE") this.writing.move(entry);
    else {
      this.writing.flush();
      if (entry.pel) this.shapes.draw(entry);
      else this.other(entry);
    }
  }

  other(entry) {
    const { paper, writing: { cursor } } = this;
    switch (entry.kind) {
      case "CLEAR":
        paper.clear(BLACK);
        cursor.lose();
        break;
      case "RESET":
        this.reset(entry.words);
        break;
      case "FIELD":
        cursor.setField(entry.points);
        break;
      case "GLYPH":
      case "MASK":
        this.definition = entry;
        this.saved = cursor.saved();
        cursor.enterGlyph();
        paper.begin();
        break;
      case "END":
        this.end();
        break;
      default:
        this.change(entry);
    }
  }

  // What changes the colours of what is there, or waits.
  change(entry) {
    const { paper } = this, { colour, address } = entry;
    if (entry.kind === "MAP") paper.step({ map: inMap(address), to: direct(entry.value) });
    else if (entry.kind === "BLINK") {
      const { on, off, delay } = entry;
      paper.step({ blink: frontOf(colour), to: inMap(address), on, off, delay });
    } else if (entry.kind === "BLINK-END") paper.step({ steady: frontOf(colour) });
    else if (entry.kind === "BLINK-START") paper.step({ blinking: true });
    else if (entry.kind === "BLINK-STOP") paper.step({ blinking: false });
    else if (entry.kind === "WAIT") paper.step({ wait: entry.tenths });
  }

  reset([first, second]) {
    const screen = first >> 3 & 7, { cursor } = this.writing;
    if (TO_BLACK.includes(screen)) this.paper.clear(BLACK);
    else if (TO_COLOUR.includes(screen)) this.paper.clear(frontOf(this.colour));
    if (second & 1) cursor.setField([]);
    cursor.lose();
  }

  end() {
    const { definition } = this;
    this.definition = null;
    if (!definition) return;
    this.writing.cursor.putBack(this.saved);
    if (definition.kind === "GLYPH") this.paper.endGlyph(definition.character);
    else this.paper.endMask(definition.mask);
  }
}

// The drawing of a page in time: `entries` are objects of the JSON of naplps-pages(1), as canonical.mjs gives them. It
// has `drawn`, how many of them are drawn; `steps`, each with the number of its entry; `named`, the glyphs and patterns
// that elements name; and `wide`, `high`, `foot`, `ground`, `first` and `address`, as a player needs them.
function drawing(entries) {
  const walk = new Walk(entries), drawn = walk.draw(), { paper } = walk;
  const isTall = Math.max(paper.top, paper.highest) > HEIGHT / WIDTH + 0.001;
  return { wide: WIDTH, high: isTall ? WIDTH : HEIGHT, foot: HEIGHT, ground: BLACK, first: FIRST, address: ADDRESS,
    drawn, named: paper.named, steps: paper.steps };
}

export { drawing };
