
// Holds pictures back that would flash more than three times in a second.

// A flash is two changes, there and back. A change is a tenth of the way from dark to full, of red, green or blue, in
// more than this part of the picture.
const MOST_CHANGES = 6, CHANGE = 26, MOST_PARTS = 0.03;
const ACROSS = 32, DOWN = 25;

class FlashGuard {
  constructor() {
    this.levels = null;
    this.context = newCanvas(ACROSS, DOWN).getContext("2d", {willReadFrequently: true});
  }

  // The levels of a picture in parts: red, green, blue of each.
  levelsOf(canvas) {
    this.context.imageSmoothingEnabled = true;
    this.context.imageSmoothingQuality = "medium";
    this.context.drawImage(canvas, 0, 0, ACROSS, DOWN);
    return this.context.getImageData(0, 0, ACROSS, DOWN).data.filter((_, at) => at % 4 !== 3);
  }

  // Whether a picture of these levels may be shown now; if so it is taken for shown.
  takes(levels, seconds) {
    if (!this.levels) this.begin(levels);
    const turns = this.turns(levels), fast = new Set();
    for (const at of turns) {
      if (seconds - this.times[at * MOST_CHANGES + this.next[at]] < 1) fast.add(Math.floor(at / 3));
    }
    if (fast.size > levels.length / 3 * MOST_PARTS) return false;
    this.keep(levels, turns, seconds);
    return true;
  }

  begin(levels) {
    this.levels = Int16Array.from(levels);
    this.ways = new Int8Array(levels.length);
    this.next = new Uint8Array(levels.length);
    this.times = new Float64Array(levels.length * MOST_CHANGES).fill(-Infinity);
  }

  // Where the level changes the other way than before.
  turns(levels) {
    const found = [];
    levels.forEach((level, at) => {
      const change = level - this.levels[at];
      if (Math.abs(change) >= CHANGE && Math.sign(change) !== this.ways[at]) found.push(at);
    });
    return found;
  }

  keep(levels, turns, seconds) {
    for (const at of turns) {
      this.times[at * MOST_CHANGES + this.next[at]] = seconds;
      this.next[at] = (this.next[at] + 1) % MOST_CHANGES;
    }
    levels.forEach((level, at) => {
      const change = level - this.levels[at], way = Math.sign(change);
      if (Math.abs(change) >= CHANGE) this.ways[at] = way;
      if (Math.abs(change) >= CHANGE || way === this.ways[at]) this.levels[at] = level;
    });
  }
}
