"use strict";
// The elements of a drawing, as a sketch has them: rect, path, polygon and text, in groups, glyphs and patterns.

const FONT = '"DejaVu Sans Mono", monospace';
// A letter with the marks that stand on it.
const LETTER = /\P{M}\p{M}*/gu;
// Viewers of SVG cut joints that are longer than this number of thicknesses.
const MITER = 4;
// The blocks of mosaics, as a path has them: left, top, right and foot of each.
const BLOCK = /M(-?[\d.]+) (-?[\d.]+)H(-?[\d.]+)V(-?[\d.]+)H-?[\d.]+Z/g;

// A transform as SVG writes it.
function matrixOf(text) {
  const matrix = new DOMMatrix();
  for (const [, kind, inside] of text.matchAll(/(\w+)\(([^)]*)\)/g)) {
    const [a, b = 0, c = 0, d, e, f] = inside.split(/[\s,]+/).map(Number);
    if (kind === "translate") matrix.translateSelf(a, b);
    else if (kind === "scale") matrix.scaleSelf(a, b);
    else if (kind === "rotate") matrix.translateSelf(b, c).rotateSelf(a).translateSelf(-b, -c);
    else matrix.multiplySelf(new DOMMatrix([a, b, c, d, e, f]));
  }
  return matrix;
}

function newPath({name, attributes: it}) {
  if (name === "path") return new Path2D(it.d);
  if (name === "polygon") return new Path2D(`M${it.points}Z`);
  const path = new Path2D();
  path.rect(it.x || 0, it.y || 0, it.width, it.height);
  return path;
}

// The path of an element, which is made once.
const pathOf = (element) => element.path ||= newPath(element);

const lettersOf = (element) => element.letters ||= element.text.match(LETTER) || [];

// The width of each letter of a text, in its own units.
const widthOf = (element) => Number(element.attributes.textLength) / lettersOf(element).length;

// What stands for a colour in an element: itself, or the one from around.
const inkOf = (value, around) => value === "currentColor" ? around : value;

// The steps of a page in their order, and the glyphs and patterns that they name.
class Table {
  constructor(data) {
    this.named = new Map(Object.entries(data.named));
    this.steps = data.steps.filter((step) => step.draw || step.clear);
    this.number = data.drawn;
    let blinking = false, clear = -1;
    for (const step of data.steps) {
      if ("blinking" in step) blinking = step.blinking;
      step.blinks = blinking;
      step.last = step.letters ? step.letters[step.letters.length - 1] : step.entry;
    }
    // For each number of steps the last one that clears.
    this.clears = [-1, ...this.steps.map((step, at) => clear = step.clear ? at : clear)];
  }

  // How many steps are whole once a number of entries are there.
  wholeBy(done) {
    return upTo(this.steps, (step) => step.last < done);
  }

  // Calls `draw` for each path and text of an element, with its matrix and the colour from around.
  visit(element, matrix, around, draw) {
    const it = element.attributes, color = it.color ? inkOf(it.color, around) : around;
    const own = it.transform ? matrix.multiply(matrixOf(it.transform)) : matrix;
    if (element.name === "use") this.visit(this.named.get(it.href.slice(1)), own, color, draw);
    else if (element.name === "g") for (const each of element.inside || []) this.visit(each, own, color, draw);
    else draw(element, own, color);
  }

  // The pattern that a fill names.
  pattern(fill) {
    return this.named.get(/^url\(#(.*)\)$/.exec(fill)[1]);
  }
}

// How many of what is in order, from the front, are so.
function upTo(items, isSo) {
  let low = 0, high = items.length;
  while (low < high) {
    const middle = (low + high) >> 1;
    if (isSo(items[middle])) low = middle + 1; else high = middle;
  }
  return low;
}
