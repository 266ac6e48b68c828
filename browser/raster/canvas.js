// Inks, and what is painted on: dots of a grid, each with an ink.

import { nearestDots, over } from "./measure.js";

// An ink is an address, or DIRECT and eight bits each of red, green and blue; with MARK it is under BLINK START.
const DIRECT = 1 << 24, MARK = 1 << 25, BLACK = DIRECT, WHITE = DIRECT | 0xffffff;
const FIRST = [0x000000, 0x242424, 0x494949, 0x6d6d6d, 0x929292, 0xb6b6b6, 0xdbdbdb, 0xffffff,
  0x0000ff, 0xbf00ff, 0xff0080, 0xff4000, 0xffff00, 0x40ff00, 0x00ff80, 0x00bfff];
const rgbOf = ([green, red, blue]) => red >> 8 << 16 | green >> 8 << 8 | blue >> 8;
const backInk = ({ kind, addresses }) => kind === "pair" ? addresses[1] : null;

function frontInk({ kind, value, addresses }) {
  if (kind === "direct") return DIRECT | rgbOf(value);
  return addresses.length ? addresses[0] : WHITE;
}

// The colour of an ink, as 24 bits of red, green and blue.
function colourOf(ink, map) {
  if (ink & DIRECT) return ink & 0xffffff;
  const address = ink & 0xffffff;
  return map.has(address) ? map.get(address) : FIRST[address >> 20];
}

class Canvas {
  constructor(grid, ground, Numbers = Uint32Array) {
    Object.assign(this, { grid, inks: new Numbers(grid.wide * grid.high).fill(ground), counted: 0 });
  }

  // Paints in an ink; with a pattern what that sets: rows of dots that repeat from the lower left corner of the grid.
  paint({ spans, counted }, ink, pattern = null) {
    this.counted += counted;
    for (let at = 0; at < spans.length; at += 3) {
      const row = spans[at], start = spans[at + 1], end = spans[at + 2], from = row * this.grid.wide;
      if (!pattern) {
        this.inks.fill(ink, from + start, from + end);
        continue;
      }
      const dots = pattern[row % pattern.length];
      for (let dot = start; dot < end; dot++) if (dots[dot % dots.length]) this.inks[from + dot] = ink;
    }
  }

  // Paints one part after another in an ink.
  paintParts(parts, ink) {
    for (const part of parts) this.paint(part, ink);
  }
}

const HALF_TONE = [[1, 0], [0, 1]], USUAL = { wide: 6, high: 6 }, SHARE = 6;
const tileOf = (size) => size ? { wide: nearestDots(size[0]), high: nearestDots(size[1]) } : USUAL;

// Upright lines (1), level lines (2) or both (3).
function linePattern(which, { wide, high }) {
  const thick = Math.max(over(Math.min(wide, high), SHARE), 1);
  return Array.from({ length: high }, (_, row) => Array.from({ length: wide }, (__, dot) => (
    Number((which & 1) && dot < thick || (which & 2) && row < thick))));
}

export {
  BLACK, Canvas, DIRECT, HALF_TONE, MARK, backInk, colourOf, frontInk, linePattern, rgbOf, tileOf,
};
