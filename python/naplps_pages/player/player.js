
// The player: its controls, its keys, and the time that continues.

const SPEEDS = [300, 1200, 2400, 4800, 9600], USUAL_SPEED = 1200;
// So long is drawn before a picture is shown, in milliseconds; so long at most a frame moves the time on, in seconds.
const A_FRAME = 30, LONGEST = 0.25;
const SHOWN_LINES = 40;
const KEYS = [
  ["Space", "play, or stop"], ["→ ←", "one entry on, or back"], ["Shift → ←", "one byte on, or back"],
  ["Home End", "to the start, to the end"], ["1 to 5", "the speed, from 300 to 9600 baud"],
  ["V", "the view: smooth, or the raster of dots"], ["B", "blinking on, or off"],
  ["↑ ↓", "in the list of bytes: the code before, or behind"], ["Escape", "nothing is marked"]];
const spelled = (value, one, more) => value.toLocaleString("en") + " " + (value === 1 ? one : more || one + "s");

class Player {
  // Shows a page in a box of the document.
  constructor(box, held) {
    const data = {...drawnOf(held), bytes: Uint8Array.from(atob(held.bytes), (letter) => letter.charCodeAt(0))};
    Object.assign(this, {box, data, marked: new Set(), row: -1, isPlaying: false, frame: 0, last: 0});
    this.isCalm = matchMedia("(prefers-reduced-motion: reduce)").matches;
    this.line = new Line(data, USUAL_SPEED);
    this.codes = new Codes(data, (row) => this.chooseRow(row));
    this.canvas = node("canvas", {className: "screen", role: "img", "aria-label": "the page as it is at this moment"});
    this.screen = new Screen(this.canvas, data);
    this.build();
    this.screen.colours.blinks = this.blinking.checked;
    this.listen();
    this.go(this.line.whole);
  }

  build() {
    const button = (word, label, action) => node("button", {type: "button", "aria-label": label, title: label,
      onclick: action}, word);
    this.playing = button("Play", "play", () => this.toggle());
    this.playing.classList.add("playing");
    this.slider = node("input", {type: "range", min: 0, step: 1, className: "time", "aria-label": "time",
      oninput: () => this.seek(this.slider.value / 1000)});
    this.speed = node("select", {"aria-label": "speed", onchange: () => this.setSpeed(Number(this.speed.value))},
      ...SPEEDS.map((each) => node("option", {value: each, selected: each === USUAL_SPEED}, each + " baud")));
    const raster = this.screen.views.raster.canvas;
    this.view = node("select", {"aria-label": "view", onchange: () => this.setView(this.view.value)},
      node("option", {value: "smooth"}, "smooth"),
      node("option", {value: "raster"}, `raster of ${raster.width} by ${raster.height}`));
    this.blinking = node("input", {type: "checkbox", checked: !this.isCalm, onchange: () => this.setBlinks()});
    this.flashing = node("input", {type: "checkbox", onchange: () => this.refresh()});
    this.told = node("p", {className: "told", role: "status"});
    this.about = node("div", {className: "about"});
    this.box.classList.add("player");
    this.box.tabIndex = -1;
    this.box.replaceChildren(...this.data.notes.map((note) => node("p", {className: "fault"}, note)),
      node("div", {className: "picture"}, this.canvas,
        node("div", {className: "controls"}, this.playing,
          button("|◀", "to the start", () => this.stop(this.line.start)), this.slider,
          button("▶|", "to the end", () => this.stop(this.line.whole))),
        node("div", {className: "controls"}, node("div", {className: "steps"}, ...this.steps(button)),
          node("label", {}, "Speed", this.speed), node("label", {}, "View", this.view),
          node("label", {title: "what blinks on a terminal blinks here"}, this.blinking, " blinking"),
          node("label", {title: "also what flashes more than three times in a second"}, this.flashing,
            " fast flashes too")),
        this.told, ...this.words(), this.keys()),
      node("div", {className: "beside"}, this.codes.box, this.about));
  }

  steps(button) {
    return [button("◀ entry", "one entry back", () => this.stepEntry(-1)),
      button("entry ▶", "one entry on", () => this.stepEntry(1)),
      button("◀ byte", "one byte back", () => this.stepByte(-1)),
      button("byte ▶", "one byte on", () => this.stepByte(1))];
  }

  keys() {
    return node("details", {className: "keys"}, node("summary", {}, "Keys"),
      node("dl", {}, ...KEYS.flatMap(([key, what]) => [node("dt", {}, key), node("dd", {}, what)])),
      node("p", {}, "A click into the picture marks the bytes of what is there; one on bytes marks what they drew."),
      node("p", {}, "A picture that would flash more than three times in a second is held back, unless fast flashes "
        + "are wanted."));
  }

  // The whole page in words, where these are known: what the picture is to those who don't see it.
  words() {
    const some = this.data.described || [];
    if (!some.length) return [];
    this.canvas.setAttribute("aria-describedby", "player-words");
    return [node("details", {className: "words"}, node("summary", {}, "In words"),
      node("ul", {id: "player-words"}, ...some.map((each) => node("li", {}, each))))];
  }

  listen() {
    this.canvas.onclick = (event) => {
      const box = this.canvas.getBoundingClientRect(), scale = this.canvas.width / box.width;
      this.chooseEntry(this.screen.entryAt((event.clientX - box.left) * scale, (event.clientY - box.top) * scale,
        this.moment.done));
    };
    this.box.addEventListener("keydown", (event) => {
      if (event.key.startsWith("Arrow")) event.stopPropagation();
      if (event.ctrlKey || event.metaKey || event.altKey || event.target.tagName === "SELECT") return;
      const takesSpace = ["BUTTON", "INPUT", "SUMMARY"].includes(event.target.tagName) && event.target !== this.slider;
      if (event.key === " " && takesSpace) return;
      if (this.key(event.key, event.shiftKey)) event.preventDefault();
    });
  }

  // Does what a key is for; whether it is for anything.
  key(key, isShifted) {
    const step = (by) => isShifted ? this.stepByte(by) : this.stepEntry(by);
    const actions = {" ": () => this.toggle(), ArrowRight: () => step(1), ArrowLeft: () => step(-1),
      Home: () => this.stop(this.line.start), End: () => this.stop(this.line.whole),
      Escape: this.row >= 0 || this.marked.size ? () => this.chooseEntry(undefined) : null,
      v: () => this.other(this.view), b: () => this.other(this.blinking)};
    const speed = SPEEDS[Number(key) - 1];
    const action = speed ? () => this.setSpeed(speed) : actions[key] || actions[key.toLowerCase()];
    if (action) action();
    return Boolean(action);
  }

  // Sets a control to its other value.
  other(control) {
    if (control.type === "checkbox") control.checked = !control.checked;
    else control.value = control.value === "smooth" ? "raster" : "smooth";
    control.onchange();
  }

  // Goes to a moment, and shows it.
  go(moment, seconds = this.line.time(moment)) {
    Object.assign(this, {moment, seconds});
    this.refresh();
    this.tell();
  }

  // Stops at a moment.
  stop(moment) {
    this.setPlaying(false);
    this.go(moment);
  }

  seek(seconds) {
    this.last = 0;
    this.go(this.line.at(seconds), seconds);
  }

  stepEntry(by) {
    this.stop(this.line.ofEntries(this.moment.done + by));
  }

  stepByte(by) {
    this.stop(this.line.ofBytes(this.moment.bytes + by));
  }

  toggle() {
    if (!this.isPlaying && this.moment.bytes >= this.line.length && this.moment.done >= this.line.number) this.seek(0);
    this.setPlaying(!this.isPlaying);
    this.refresh();
  }

  setPlaying(isPlaying) {
    this.isPlaying = isPlaying;
    this.last = 0;
    this.playing.textContent = isPlaying ? "Stop" : "Play";
    this.playing.ariaLabel = this.playing.title = isPlaying ? "stop" : "play";
    this.told.setAttribute("aria-live", isPlaying ? "off" : "polite");
  }

  setSpeed(baud) {
    this.line.set(baud);
    this.speed.value = String(baud);
    this.go(this.moment);
  }

  setView(name) {
    this.screen.use(name);
    this.refresh();
  }

  setBlinks() {
    this.screen.colours.blinks = this.blinking.checked;
    this.refresh();
  }

  // Asks for a picture.
  refresh() {
    this.isDue = true;
    this.request();
  }

  request() {
    this.frame ||= requestAnimationFrame((now) => this.onFrame(now));
  }

  onFrame(now) {
    this.frame = 0;
    if (!this.box.clientWidth) return;  // (nobody sees it; what shows it again asks for a picture)
    const gone = this.last ? Math.min((now - this.last) / 1000, LONGEST) : 0;
    this.last = now;
    if (this.isPlaying) this.advance(gone);
    if (this.screen.colours.blinks) this.screen.colours.clock += gone;
    const state = this.screen.colours.state;
    if (this.isDue || this.isPlaying || state !== this.state) {
      this.isDue = !this.screen.show(this.moment.done, this.marked, {until: performance.now() + A_FRAME,
        seconds: now / 1000, isGuarded: !this.flashing.checked});
      this.state = state;
    }
    if (this.isDue || this.isPlaying || this.screen.colours.areMoving) this.request();
    else this.last = 0;
  }

  advance(gone) {
    const seconds = Math.min(this.line.end, this.seconds + gone);
    Object.assign(this, {seconds, moment: this.line.at(seconds)});
    if (seconds >= this.line.end) {
      this.moment = this.line.whole;
      this.setPlaying(false);
      this.isDue = true;
    }
    this.tell();
  }

  // Shows a moment at once, as it is when all is drawn.
  showNow(moment) {
    this.setPlaying(false);
    this.go(moment);
    while (!this.screen.show(this.moment.done, this.marked)) { /* once more, with the colours of now */ }
  }

  tell() {
    const {done, bytes} = this.moment, {line, data} = this;
    this.slider.max = Math.ceil(line.end * 1000);
    this.slider.value = Math.round(this.seconds * 1000);
    const waits = this.isPlaying && line.isWaiting(this.moment, this.seconds) ? ", it waits" : "";
    const [entry, entries] = [done, line.number].map((each) => (each - line.before).toLocaleString("en"));
    this.told.textContent = `Byte ${bytes.toLocaleString("en")} of ${line.length.toLocaleString("en")}, entry ${entry} `
      + `of ${entries}, ${this.seconds.toFixed(1)} of ${line.end.toFixed(1)}\u00a0s${waits}`;
    this.slider.setAttribute("aria-valuetext", this.told.textContent);
    const now = bytes ? this.codes.rowOf(Math.min(bytes, data.length) - 1) : -1;
    this.codes.set(now, this.row, this.row >= 0 ? -1 : Math.max(0, now));
    if (this.row < 0) this.tellAbout(done > line.before ? [done - 1] : []);
  }

  chooseRow(row) {
    this.choose(row, this.codes.entries[row]);
  }

  chooseEntry(entry) {
    if (entry === undefined) this.choose(-1, []);
    else this.choose(this.codes.rowOfEntry(entry), [entry]);
  }

  // Marks the shapes of entries and the row of their bytes.
  choose(row, entries) {
    this.row = row;
    this.marked = new Set(entries);
    this.codes.set(this.codes.now, row, row);
    this.tellAbout(entries);
    this.refresh();
  }

  // The lines of entries, each with its bytes.
  tellAbout(entries) {
    const {lines, places, before} = this.data;
    const bytes = this.row >= 0 ? [node("p", {}, this.codes.told(this.row))] : [];
    const some = entries.slice(0, SHOWN_LINES).map((entry) => entry < before
      ? node("li", {className: "earlier"}, node("code", {}, lines[entry]), " of a page before it")
      : node("li", {value: entry + 1 - before}, node("code", {}, lines[entry]),
        ` with byte ${places[entry].toLocaleString("en")}`));
    const more = entries.length - some.length;
    this.about.replaceChildren(...bytes, node("ol", {}, ...some),
      ...(more > 0 ? [node("p", {}, `and ${spelled(more, "entry", "entries")} more`)] : []));
  }
}
