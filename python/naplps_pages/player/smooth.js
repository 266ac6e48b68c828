
// Draws elements on a canvas as a viewer of SVG draws them.

class CanvasPainter {
  // `colourOf` tells the colour of an ink.
  constructor(table, colourOf) {
    Object.assign(this, {table, colourOf, patterns: new Map()});
  }

  // Draws an element.
  draw(context, element, matrix, around) {
    this.table.visit(element, matrix, around, (each, own, color) => this.one(context, each, own, color));
    context.resetTransform();
  }

  one(context, element, matrix, around) {
    const it = element.attributes;
    context.setTransform(matrix);
    if (element.name === "text") this.text(context, element, around);
    else {
      if (it.fill !== "none") this.fill(context, element, matrix, around);
      if (it.stroke) this.stroke(context, element, around);
    }
  }

  fill(context, element, matrix, around) {
    const it = element.attributes;
    context.fillStyle = it.fill.startsWith("url(") ? this.pattern(context, it.fill)
      : this.colourOf(inkOf(it.fill, around));
    context.globalAlpha = Number(it["fill-opacity"] ?? 1);
    if (it["shape-rendering"] !== "crispEdges" || !fillBlocks(context, it.d, matrix)) {
      context.fill(pathOf(element), it["fill-rule"] || "nonzero");
    }
    context.globalAlpha = 1;
  }

  stroke(context, element, around) {
    const it = element.attributes;
    context.strokeStyle = this.colourOf(inkOf(it.stroke, around));
    context.lineWidth = Number(it["stroke-width"] || 1);
    context.lineCap = it["stroke-linecap"] || "butt";
    context.lineJoin = it["stroke-linejoin"] || "miter";
    context.miterLimit = MITER;
    context.setLineDash((it["stroke-dasharray"] || "").split(" ").filter(Boolean).map(Number));
    context.stroke(pathOf(element));
  }

  // Draws letters, each where `place` moves the begin of its cell.
  text(context, element, around, place = (x) => x) {
    const it = element.attributes, size = Number(it["font-size"]), wide = widthOf(element);
    if (!(size > 0)) return;
    context.font = `${size}px ${FONT}`;
    context.fillStyle = this.colourOf(inkOf(it.fill, around));
    lettersOf(element).forEach((letter, at) => letter !== " " && context.fillText(letter, place(at * wide), 0));
  }

  pattern(context, fill) {
    if (!this.patterns.has(fill)) this.patterns.set(fill, this.tile(context, this.table.pattern(fill)));
    return this.patterns.get(fill);
  }

  // A pattern drawn once, in whole pels, so that each of its copies is the same.
  tile(context, element) {
    const wide = Number(element.attributes.width), high = Number(element.attributes.height);
    const canvas = newCanvas(Math.max(1, Math.ceil(wide)), Math.max(1, Math.ceil(high)));
    const across = canvas.width / wide, down = canvas.height / high;
    for (const each of element.inside || []) {
      this.draw(canvas.getContext("2d"), each, new DOMMatrix([across, 0, 0, down, 0, 0]), "#000000");
    }
    const pattern = context.createPattern(canvas, "repeat");
    pattern.setTransform(new DOMMatrix([1 / across, 0, 0, 1 / down, 0, 0]));
    return pattern;
  }
}

function newCanvas(wide, high) {
  return Object.assign(document.createElement("canvas"), {width: wide, height: high});
}

// Fills the blocks of mosaics to whole pels, as crispEdges asks of viewers; whether the path is such blocks alone.
function fillBlocks(context, path, matrix) {
  if (path.replace(BLOCK, "") !== "" || matrix.b || matrix.c) return false;
  context.resetTransform();
  for (const [left, top, right, foot] of [...path.matchAll(BLOCK)].map((found) => found.slice(1).map(Number))) {
    const [a, b] = [left, right].map((x) => Math.round(matrix.a * x + matrix.e));
    const [c, d] = [top, foot].map((y) => Math.round(matrix.d * y + matrix.f));
    context.fillRect(a, c, b - a, d - c);
  }
  return true;
}

// The picture as a viewer of SVG has it, drawn on as entries come, and anew where a colour changes of what stands.
class SmoothView {
  constructor(table, data) {
    this.table = table;
    this.ground = data.ground;
    this.canvas = newCanvas(data.wide, data.high);
    this.context = this.canvas.getContext("2d");
    this.matrix = new DOMMatrix([1, 0, 0, 1, 0, data.high - data.foot]);
    this.at = -1;
  }

  begin(clear, colours) {
    this.used = new Map();
    this.painter = new CanvasPainter(this.table, (ink) => this.colour(ink));
    this.colours = colours;
    this.blinks = clear >= 0 && this.table.steps[clear].blinks;
    this.context.fillStyle = clear < 0 ? this.ground : this.colour(this.table.steps[clear].clear);
    this.context.fillRect(0, 0, this.canvas.width, this.canvas.height);
    this.at = clear + 1;
    this.isWhole = false;
  }

  colour(ink) {
    const key = this.blinks ? "!" + ink : ink;
    if (!this.used.has(key)) this.used.set(key, this.colours.of(ink, this.blinks));
    return this.used.get(key);
  }

  // Whether a colour that was used is another one now.
  get isStale() {
    for (const [key, colour] of this.used) {
      const blinks = key[0] === "!";
      if (this.colours.of(blinks ? key.slice(1) : key, blinks) !== colour) return true;
    }
    return false;
  }

  // Draws what is there once `done` entries are, up to a time; whether that was all. What was begun is ended first,
  // with the colours that it has.
  advance(done, colours, until) {
    const end = this.table.wholeBy(done), clear = this.table.clears[end];
    if (this.at < 0 || this.at > end || this.at <= clear || (this.isWhole && this.isStale)) this.begin(clear, colours);
    while (this.at < end) {
      if (performance.now() > until) return false;
      this.step(this.context, this.table.steps[this.at++]);
    }
    this.isWhole = true;
    return true;
  }

  step(context, step) {
    if (this.blinks !== step.blinks) this.painter.patterns.clear();
    this.blinks = step.blinks;
    this.painter.draw(context, step.draw, this.matrix, "#000000");
  }

  // Shows it, and over it the letters that are there of a text that isn't whole.
  show(context, done) {
    context.imageSmoothingEnabled = true;
    context.drawImage(this.canvas, 0, 0, context.canvas.width, context.canvas.height);
    for (let at = this.at; at < this.table.steps.length && this.table.steps[at].entry < done; at++) {
      const step = this.table.steps[at], [left, wide] = cellsOf(step, done);
      context.save();
      context.beginPath();
      context.rect(left, 0, wide, context.canvas.height);
      context.clip();
      this.step(context, step);
      context.restore();
    }
  }
}

// Where the cells begin, and how wide they are together, of those letters of a text that are there; in whole pels of
// mosaics, which end there.
function cellsOf(step, done) {
  const end = step.x + step.cell * upTo(step.letters, (entry) => entry < done);
  const sides = step.draw.attributes["shape-rendering"] ? [step.x, end].map(Math.round) : [step.x, end];
  return [Math.min(...sides), Math.abs(sides[1] - sides[0])];
}
