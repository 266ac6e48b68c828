
// When what is there: the line that the page comes down, and the colours as the map and the blinks have them.

// A byte has eight bits on the line, one before and one after them.
const BITS = 10;

// A moment is how many bytes have come, and how many entries with them.
class Line {
  constructor(data, baud) {
    this.length = data.length;
    this.number = data.places.length;
    // (those of earlier pages are there from the start)
    this.before = data.before;
    this.received = data.places.map((place) => Math.min(place + 1, data.length));
    // What was waited for before each entry, and after the last one, in seconds.
    this.waited = [0];
    const waiting = data.steps.filter((step) => "wait" in step && step.entry >= this.before);
    const waits = new Map(waiting.map((step) => [step.entry, step.wait / 10]));
    for (let at = 0; at < this.number; at++) this.waited.push(this.waited[at] + (waits.get(at) || 0));
    this.set(baud);
  }

  set(baud) {
    this.second = baud / BITS;
    this.times = this.received.map((bytes, at) => bytes / this.second + this.waited[at]);
    this.end = this.length / this.second + this.waited[this.number];
  }

  // The moment a number of seconds after the first bit.
  at(seconds) {
    const done = upTo(this.times, (time) => time <= seconds + 1e-9);
    const come = Math.floor((seconds - this.waited[done]) * this.second + 1e-6);
    const least = done ? this.received[done - 1] : 0;
    return {done, bytes: Math.min(this.length, Math.max(come, least))};
  }

  // When a moment begins.
  time({done, bytes}) {
    return Math.max(done ? this.times[done - 1] : 0, bytes / this.second + this.waited[done]);
  }

  get start() {
    return {done: this.before, bytes: 0};
  }

  get whole() {
    return this.ofEntries(this.number);
  }

  // The moment at which a number of entries are there.
  ofEntries(done) {
    const count = Math.max(this.before, Math.min(this.number, done));
    const whole = count === this.number ? this.length : 0;
    return {done: count, bytes: Math.max(whole, count ? this.received[count - 1] : 0)};
  }

  // The moment at which a number of bytes have come.
  ofBytes(bytes) {
    const count = Math.max(0, Math.min(this.length, bytes));
    return {done: upTo(this.received, (each) => each <= count), bytes: count};
  }

  // Whether a wait continues.
  isWaiting({done, bytes}, seconds) {
    return done > 0 && this.waited[done] > this.waited[done - 1] && bytes === this.received[done - 1]
      && seconds < this.times[done - 1] + this.waited[done] - this.waited[done - 1];
  }
}

// What blinks by itself, as text between BLINK START and BLINK STOP, is dark for the second half of a second.
const SECOND = 1;

class Colours {
  constructor(data) {
    this.data = data;
    this.steps = data.steps.filter((step) => step.map || step.blink || step.steady);
    this.hasMarks = data.steps.some((step) => step.blinking);
    this.blinks = true;
    this.clock = 0;
    this.begin();
  }

  begin() {
    this.at = this.done = 0;
    this.map = new Map();
    this.processes = new Map();
  }

  // Takes the entries up to this number. The clock continues whatever comes.
  move(done) {
    if (done < this.done) this.begin();
    this.done = done;
    for (; this.at < this.steps.length && this.steps[this.at].entry < done; this.at++) {
      const step = this.steps[this.at];
      if (step.map) this.map.set(step.map, step.to);
      else if (step.blink) this.processes.set(step.blink, {...step, began: this.clock});
      else this.processes.delete(step.steady);
    }
  }

  // Whether anything blinks.
  get areMoving() {
    return this.blinks && (this.processes.size > 0 || this.hasMarks);
  }

  // What blinks how at this time, to be compared.
  get state() {
    const on = [...this.processes.values()].map((process) => this.isOn(process) ? "1" : "0").join("");
    return this.areMoving ? on + (this.isDark ? "-" : "+") : "";
  }

  get isDark() {
    return this.clock % SECOND >= SECOND / 2;
  }

  // The colour of an ink, of what blinks by itself or doesn't.
  of(ink, blinks) {
    if (blinks && this.blinks && this.isDark) return this.data.ground;
    const process = this.blinks && this.processes.get(ink);
    return this.still(process && this.isOn(process) ? process.to : ink);
  }

  still(ink) {
    if (!ink.startsWith(this.data.address)) return ink;
    return this.map.get(ink) || this.data.first[Number(ink.slice(this.data.address.length)) >> 20 & 15];
  }

  // Whether a blink shows its other colour; its times are in tenths of a second.
  isOn({on, off, delay, began}) {
    if (on + off === 0) return false;
    const tenths = (this.clock - began) * 10 - delay;
    return tenths >= 0 && tenths % (on + off) < on;
  }
}
