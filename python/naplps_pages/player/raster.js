
// The raster of a page: each dot has an ink, and the inks have their colours as the map is now.

const RASTER_WIDE = 256, RASTER_HIGH = 200;

// The name of an ink, as elements of the drawing have it.
function nameOfInk(ink, address) {
  if (!(ink & Dots.DIRECT)) return address + (ink & ~Dots.MARK);
  return "#" + (ink & 0xffffff).toString(16).padStart(6, "0");
}

class RasterView {
  constructor(data) {
    this.data = data;
    this.canvas = newCanvas(RASTER_WIDE, RASTER_HIGH);
    this.context = this.canvas.getContext("2d");
    this.image = this.context.createImageData(RASTER_WIDE, RASTER_HIGH);
    this.raster = null;
  }

  // Its colours are those of now, whenever it is shown.
  get isStale() {
    return false;
  }

  // Paints what is there once `done` entries are, up to a time; whether that was all.
  advance(done, colours, until) {
    this.colours = colours;
    if (!this.raster || this.raster.drawn > done) this.raster = Dots.rasterOf(this.data.listed);
    while (this.raster.drawn < done && this.raster.hasNext) {
      if (performance.now() > until) return false;
      this.raster.next();
    }
    return true;
  }

  // The colour of an ink, as the pels of an image have it.
  shown(ink) {
    const value = parseInt(this.colours.of(nameOfInk(ink, this.data.address), (ink & Dots.MARK) !== 0).slice(1), 16);
    return 0xff000000 + ((value & 255) << 16) + (value & 0xff00) + (value >> 16);
  }

  // Shows it. Above the part of the square that screens show there is nothing.
  show(context) {
    const {inks} = this.raster, shown = new Uint32Array(this.image.data.buffer), known = new Map();
    for (let row = 0; row < RASTER_HIGH; row++) {
      const from = (RASTER_HIGH - 1 - row) * RASTER_WIDE, to = row * RASTER_WIDE;
      for (let dot = 0; dot < RASTER_WIDE; dot++) {
        const ink = inks[from + dot];
        if (!known.has(ink)) known.set(ink, this.shown(ink));
        shown[to + dot] = known.get(ink);
      }
    }
    this.context.putImageData(this.image, 0, 0);
    const {high, foot, ground, wide} = this.data;
    context.resetTransform();
    context.imageSmoothingEnabled = false;
    context.fillStyle = ground;
    context.fillRect(0, 0, wide, high - foot);
    context.drawImage(this.canvas, 0, high - foot, wide, foot);
  }
}
