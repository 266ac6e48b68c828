
// The one canvas: the picture of a moment, with what is marked in it, and what is at a place of it.

// What is marked comes to the front, with these two lines around it.
const RINGS = [[12, "#000000"], [7, "#ff5fd7"]];
// A click so near to a shape is one on it.
const NEAR = 6;

class Screen {
  constructor(canvas, data) {
    canvas.width = data.wide;
    canvas.height = data.high;
    this.canvas = canvas;
    this.context = canvas.getContext("2d");
    this.table = new Table(data);
    this.colours = new Colours(data);
    this.views = {smooth: new SmoothView(this.table, data), raster: new RasterView(data)};
    this.view = this.views.smooth;
    this.matrix = this.views.smooth.matrix;
    this.guard = new FlashGuard();
    this.next = newCanvas(data.wide, data.high).getContext("2d");
  }

  use(name) {
    this.view = this.views[name];
  }

  // Shows what is there once a number of entries are, if it can be drawn up to a time; whether that is done.
  show(done, marked, {until = Infinity, seconds = 0, isGuarded = false} = {}) {
    this.colours.move(done);
    if (!this.view.advance(done, this.colours, until)) return false;
    this.view.show(this.next, done);
    if (isGuarded && !this.guard.takes(this.guard.levelsOf(this.next.canvas), seconds)) return false;
    this.context.drawImage(this.next.canvas, 0, 0);
    this.mark(marked);
    return !this.view.isStale;
  }

  // Marks the shapes of some entries.
  mark(entries) {
    if (!entries.size) return;
    const painter = new CanvasPainter(this.table, (ink) => this.colours.of(ink, false));
    this.context.save();
    for (const step of this.table.steps) {
      const own = step.letters ? step.letters.map((entry) => entries.has(entry)) : [entries.has(step.entry)];
      if (step.draw && own.includes(true)) this.markStep(step, own.indexOf(true), own.lastIndexOf(true), painter);
    }
    this.context.restore();
  }

  // Marks a step; of letters those from the first to the last.
  markStep(step, first, last, painter) {
    this.table.visit(step.draw, this.matrix, "#ffffff", (element, matrix, around) => {
      if (element.name === "text") {
        this.ring(boxOf(element, ...(step.letters ? [first, last] : [0, lettersOf(element).length - 1])), matrix, 0);
      } else if (step.letters && element.attributes["shape-rendering"]) {
        this.ring(rowBoxOf(step, element, first, last), matrix, 0);
      } else if (!step.letters) {
        const it = element.attributes;
        this.ring(pathOf(element), matrix, it.stroke ? it["stroke-width"] * Math.hypot(matrix.a, matrix.b) : 0);
        painter.one(this.context, element, matrix, around);
      }
    });
  }

  // Draws lines around a path, outside of a line of its own that is so thick.
  ring(path, matrix, thick) {
    const around = new Path2D();
    around.addPath(path, matrix);
    this.context.resetTransform();
    this.context.setLineDash([]);
    for (const [width, strokeStyle] of RINGS) {
      Object.assign(this.context, {lineWidth: width + thick, strokeStyle, lineJoin: "round", lineCap: "round"});
      this.context.stroke(around);
    }
  }

  // The entry of what is uppermost at a place, once a number are there; undefined where there is only ground.
  entryAt(x, y, done) {
    const first = this.table.clears[this.table.wholeBy(done)];
    const end = upTo(this.table.steps, (step) => step.entry < done);
    for (const near of [0, NEAR]) {
      for (let at = end - 1; at > first; at--) {
        const entry = this.hit(this.table.steps[at], x, y, near);
        if (entry !== undefined && entry < done) return entry;
      }
    }
    return undefined;
  }

  // The entry of a step that has something at a place, or so near to it.
  hit(step, x, y, near) {
    let found;
    if (!step.draw) return found;
    this.next.lineWidth = near;
    this.table.visit(step.draw, this.matrix, "", (element, matrix) => {
      const it = element.attributes, {x: across, y: down} = new DOMPoint(x, y).matrixTransform(matrix.inverse());
      if (element.name === "text") {
        const size = Number(it["font-size"]), wide = widthOf(element), at = Math.floor(across / wide);
        const isIn = down >= -size && down <= size / 3 && at >= 0 && at < lettersOf(element).length;
        if (isIn) found = step.letters ? step.letters[at] : step.entry;
      } else if (this.has(element, matrix, x, y, near)) {
        found = step.letters ? step.letters[Math.floor((x - step.x) / step.cell)] : step.entry;
      }
    });
    return found;
  }

  has(element, matrix, x, y, near) {
    const it = element.attributes, path = new Path2D();
    path.addPath(pathOf(element), matrix);
    if (it.fill !== "none" && this.next.isPointInPath(path, x, y, it["fill-rule"] || "nonzero")) return true;
    this.next.lineWidth = Math.max(near, Number(it["stroke-width"] || 0) * Math.hypot(matrix.a, matrix.b));
    return (it.stroke || near > 0) && this.next.isPointInStroke(path, x, y);
  }
}

// The cells of some mosaics of a row, as high as its blocks.
function rowBoxOf({x, cell}, element, first, last) {
  const heights = Array.from(element.attributes.d.matchAll(/[ V](-?[\d.]+)/g), ([, y]) => Number(y));
  const top = Math.min(...heights), path = new Path2D();
  path.rect(x + first * cell, top, (last + 1 - first) * cell, Math.max(...heights) - top);
  return path;
}

// The cells of some letters of a text, in its own units.
function boxOf(element, first, last) {
  const size = Number(element.attributes["font-size"]), wide = widthOf(element), path = new Path2D();
  path.rect(first * wide, -size, (last + 1 - first) * wide, size * 4 / 3);
  return path;
}
