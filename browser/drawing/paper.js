// What is drawn on: steps in their order, glyphs, masks, and patterns; and how much of it there may be.

import { MOST_BYTES, MOST_COPIED, MOST_WEIGHT, NOTHING, element, fixed, plus, sizeOf, total } from "./measure.js";

class Full extends Error {}

class Paper {
  constructor() {
    Object.assign(this, { steps: [], named: {}, glyphs: new Map(), masks: new Map() });
    Object.assign(this, { definedGlyphs: 0, definedMasks: 0, open: null, openSize: 0, openWeight: NOTHING });
    Object.assign(this, { copied: 0, isFull: false, held: 0, top: 0, highest: 0, entry: 0 });
    this.ofPage = { size: 0, weight: 0 };
    this.ofDefinitions = { size: 0, weight: 0 };
  }

  // Counts what is about to be drawn. Throws Full once, where it is too much.
  spend(size, weight) {
    if (!this.open) return this.count(this.ofPage, size, total(weight));
    this.openWeight = plus(this.openWeight, weight);
    return this.count(this.ofDefinitions, size, weight[0]);
  }

  count(cost, size, weight) {
    if (!this.isFull) {
      cost.size += size;
      cost.weight += weight;
      this.fullIf(this.ofPage.size + this.ofDefinitions.size > MOST_BYTES
        || this.ofPage.weight + this.ofDefinitions.weight > MOST_WEIGHT);
    }
    this.held += size;
    this.fullIf(this.held > MOST_BYTES);
  }

  require(points) {
    this.fullIf(this.ofPage.weight + this.ofDefinitions.weight + points > MOST_WEIGHT);
  }

  fullIf(isTooMuch) {
    if (!isTooMuch || this.isFull) return;
    this.isFull = true;
    throw new Full();
  }

  put(it, weight) {
    const size = sizeOf(it);
    this.spend(size, weight);
    if (this.open) this.keepOpen(it, size);
    else this.step({ draw: it });
  }

  // Draws an element of some letters, which were counted before.
  putCounted(it, { entries, x, wide }) {
    if (this.open) this.keepOpen(it, sizeOf(it));
    else {
      const [left, cell] = [Number(fixed(x, 2)), Number(fixed(wide, 4))];
      this.step({ draw: it, entry: entries[0], letters: entries, x: left, cell });
    }
  }

  keepOpen(it, size) {
    this.open.push(it);
    this.openSize += size;
  }

  step(members) {
    this.steps.push({ entry: this.entry, ...members });
  }

  reach(y) {
    if (!this.open && y > this.top) this.top = y;
  }

  clear(colour) {
    this.highest = Math.max(this.highest, this.top);
    if (this.open) return;
    this.ofPage.size = this.ofPage.weight = this.top = 0;
    this.step({ clear: colour });
  }

  begin() {
    Object.assign(this, { open: [], openSize: 0, openWeight: NOTHING });
  }

  endGlyph(code) {
    const glyph = this.ended("g", this.definedGlyphs++);
    this.glyphs.set(code, glyph);
    this.defineGroup(glyph);
  }

  endMask(name) {
    this.masks.set(name, this.ended("m", ++this.definedMasks));
  }

  ended(letter, number) {
    const elements = this.open || [];
    this.open = null;
    return { number, name: `n${letter}${number}`, elements, size: this.openSize, weight: this.openWeight };
  }

  drawingOf(mask) {
    if (this.copied + mask.size <= MOST_COPIED) {
      this.copied += mask.size;
      return mask.elements;
    }
    this.defineGroup(mask);
    return [element("use", { href: `#${mask.name}` })];
  }

  defineGroup(it) {
    this.define(it.name, element("g", { id: it.name }, it.elements), it.size);
  }

  define(key, it, counted = 0) {
    if (Object.hasOwn(this.named, key)) return;
    this.count(this.ofDefinitions, sizeOf(it) - counted, 0);
    this.named[key] = it;
  }
}

export { Full, Paper };
