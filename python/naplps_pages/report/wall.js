
// The wall: thumbnails of all pages that are found. Only those that can be seen have elements.
const PART = 120, HELD_PARTS = 40, BUSY = 6, NARROW = 150, WIDE = 200, GAP = 10, CAPTION = 80, LINE = 16, ROWS_AHEAD = 2;
// Drawings that are held; for how many ms the wall counts as scrolled after the last of it, and how many lie between
// two pictures meanwhile.
const HELD_DRAWINGS = 150, STILL = 120, BETWEEN = 30;

// Files in their order, asked for in parts; those that were looked at last are held.
class Parts {
  constructor(ask) {
    Object.assign(this, {ask, total: 0, parts: new Map()});
  }

  async begin() {
    this.parts.clear();
    this.total = (await this.part(0)).total;
  }

  part(number) {
    const found = this.parts.get(number) || this.ask(number * PART, PART);
    this.parts.delete(number);
    this.parts.set(number, found);
    if (this.parts.size > HELD_PARTS) this.parts.delete(this.parts.keys().next().value);
    return found;
  }

  async file(at) {
    return (await this.part(Math.floor(at / PART))).files[at % PART];
  }
}

class Wall {
  // `thumbnail` draws a file, `open` shows its page, `label` says what stands below it.
  constructor(box, ask, thumbnail, open, label) {
    Object.assign(this, {box, thumbnail, open, label, parts: new Parts(ask), tiles: new Map(), waiting: [], busy: 0,
      drawings: new Map(), ready: [], resting: [], scrolled: -STILL, was: 0, at: 0, columns: 1, row: 1, turn: 0,
      told: () => undefined});
    addEventListener("scroll", () => { this.scrolled = performance.now(); this.soon(); }, {passive: true});
    new ResizeObserver(() => this.measure()).observe(box);
    box.onkeydown = doing((event) => this.key(event));
    box.onfocusin = (event) => { this.at = Number(event.target.closest("li")?.dataset.at ?? this.at); };
  }

  get total() { return this.parts.total; }

  // Shows what is found now, from its beginning.
  async show() {
    const turn = ++this.turn, parts = new Parts(this.parts.ask);
    await parts.begin();
    if (turn !== this.turn) return;
    Object.assign(this, {parts, at: 0});
    this.empty();
    this.measure();
  }

  empty() {
    this.box.replaceChildren();
    this.tiles.clear();
    Object.assign(this, {waiting: [], ready: []});
  }

  // Columns and rows, as wide as the window lets them be.
  measure() {
    const width = this.box.clientWidth;
    if (!width) return;
    const first = this.first(), least = width < 500 ? NARROW : WIDE;
    this.columns = Math.max(1, Math.floor((width + GAP) / (least + GAP)));
    this.side = (width - GAP * (this.columns - 1)) / this.columns;
    this.row = Math.ceil(this.side * 800 / 1024) + CAPTION + (least === NARROW ? LINE : 0) + GAP;
    this.box.style.height = Math.ceil(this.total / this.columns) * this.row + "px";
    for (const [at, tile] of this.tiles) this.place(at, tile);
    if (first >= this.columns) scrollTo(0, this.top() + Math.floor(first / this.columns) * this.row);
    this.render();
  }

  top() { return this.box.getBoundingClientRect().top + scrollY; }

  // The first that can be seen.
  first(top = this.top()) {
    return Math.max(0, Math.floor((scrollY - top) / this.row)) * this.columns;
  }

  soon() {
    this.asked ||= requestAnimationFrame(() => { this.asked = 0; this.render(); });
  }

  // Makes the elements that can be seen now, and takes away the others, but the one that has the focus.
  render() {
    if (!this.box.clientWidth) return;
    // (all is measured before anything is changed, so that the browser arranges the page once)
    const top = this.top(), first = this.first(top), last = this.last(top);
    const from = Math.max(0, first - ROWS_AHEAD * this.columns);
    const rows = Math.ceil(innerHeight / this.row) + 2 * ROWS_AHEAD + 1;
    const end = Math.min(this.total, from + rows * this.columns);
    for (const [at, tile] of this.tiles) {
      if ((at < from || at >= end) && !tile.contains(document.activeElement)) {
        tile.remove();
        this.tiles.delete(at);
      }
    }
    if (!this.tiles.has(this.at)) this.at = Math.min(first, Math.max(0, this.total - 1));
    let behind = null;
    for (let at = end - 1; at >= from; at--) {
      if (!this.tiles.has(at)) this.box.insertBefore(this.tile(at), behind);
      behind = this.tiles.get(at);
      behind.firstChild.tabIndex = at === this.at ? 0 : -1;
    }
    this.told(first, Math.min(this.total, last + 1));
  }

  last(top = this.top()) {
    const rows = Math.ceil((scrollY + innerHeight - top) / this.row);
    return Math.min(this.total, Math.max(1, rows) * this.columns) - 1;
  }

  place(at, tile) {
    tile.style.width = this.side + "px";
    tile.style.height = this.row - GAP + "px";
    tile.style.left = (at % this.columns) * (this.side + GAP) + "px";
    tile.style.top = Math.floor(at / this.columns) * this.row + "px";
  }

  tile(at) {
    const button = make("button", {type: "button", className: "tile", tabIndex: -1, "aria-label": "a page"},
      make("span", {className: "thumb"}));
    const tile = make("li", {"aria-setsize": this.total, "aria-posinset": at + 1}, button);
    tile.dataset.at = at;
    this.place(at, tile);
    this.tiles.set(at, tile);
    this.fill(at, tile, button).catch(tell);
    return tile;
  }

  // Names first; the picture when its turn comes.
  async fill(at, tile, button) {
    const file = await this.parts.file(at);
    if (!file || !tile.isConnected) return;
    const cut = file.name.lastIndexOf("/") + 1, leaf = file.name.slice(cut);
    const folder = file.name.slice(0, leaf ? cut : 0);
    const line = (className, text) => make("span", {className}, text);
    const says = line("says", file.says || ""), label = this.label(file);
    button.append(line("leaf", leaf || file.name), ...(folder ? [line("folder", folder)] : []), says,
      ...(label ? [line("badge", label)] : []));
    button.title = file.name;
    button.setAttribute("aria-label", [file.name, label, file.says].filter(Boolean).join(", "));
    button.onclick = doing(() => this.open(file.key, at));
    if (!isPage(file)) button.firstChild.replaceChildren(instead(kindOf(file)));
    else this.waiting.push({at, file, tile, thumb: button.firstChild, says});
    this.soonDrawn ||= requestAnimationFrame(() => { this.soonDrawn = 0; this.draw(); });
  }

  // Draws a few at a time, those first that can be seen. What was scrolled away meanwhile isn't drawn.
  draw() {
    const top = this.top(), first = this.first(top), last = this.last(top);
    const away = ({at}) => at < first ? first - at : Math.max(0, at - last);
    this.waiting = this.waiting.filter(({tile}) => tile.isConnected)
      .sort((one, other) => away(one) - away(other) || one.at - other.at);
    for (const next of this.waiting.splice(0, BUSY - this.busy)) {
      this.busy++;
      this.drawn(next).catch(tell).finally(() => { this.busy--; this.draw(); });
    }
    if (!this.busy) this.resting.splice(0).forEach((rests) => rests());
  }

  // Waits until all that stands on the wall is drawn.
  rest() {
    return this.busy || this.waiting.length ? new Promise((rests) => this.resting.push(rests)) : Promise.resolve();
  }

  async drawn(next) {
    const key = next.file.key, drawing = this.drawings.get(key) || await this.thumbnail(key);
    this.drawings.delete(key);
    this.drawings.set(key, drawing);
    if (this.drawings.size > HELD_DRAWINGS) this.drawings.delete(this.drawings.keys().next().value);
    this.ready.push({...next, drawing});
    this.put();
  }

  // Puts pictures in: now and then one while the wall is scrolled, so that no frame is late, and else all.
  put() {
    this.putting ||= requestAnimationFrame((now) => {
      this.putting = 0;
      this.ready = this.ready.filter(({tile}) => tile.isConnected);
      const few = now - this.was < BETWEEN ? 0 : 1;
      const some = this.ready.splice(0, now - this.scrolled < STILL ? few : this.ready.length);
      if (some.length) this.was = now;
      for (const {file, thumb, says, drawing} of some) {
        thumb.replaceChildren(picture(cropped(drawing), file.name));
        if (blinks(drawing)) this.markBlinking(thumb.parentElement);
        if (!says.textContent) says.textContent = oneLine(drawing.text || "").slice(0, 60);
      }
      if (this.ready.length) this.put();
    });
  }

  // A word below a page of which parts blink.
  markBlinking(button) {
    if (!button.querySelector(".badge")) button.append(make("span", {className: "badge"}));
    const badge = button.querySelector(".badge");
    badge.append(make("span", {className: "blinks"}, badge.textContent ? ", blinks" : "blinks"));
    button.setAttribute("aria-label", button.getAttribute("aria-label") + ", blinks");
  }

  // The keys that go from tile to tile.
  key(event) {
    const seen = Math.max(1, Math.floor(innerHeight / this.row) - 1) * this.columns;
    const by = {ArrowLeft: -1, ArrowRight: 1, ArrowUp: -this.columns, ArrowDown: this.columns, PageUp: -seen,
      PageDown: seen, Home: -this.total, End: this.total}[event.key];
    if (by === undefined || event.altKey || event.ctrlKey || event.metaKey || !this.total) return;
    event.preventDefault();
    const to = this.at + by, last = this.total - 1;
    this.focus(Math.abs(by) === this.columns && (to < 0 || to > last) ? this.at : Math.min(last, Math.max(0, to)));
  }

  // Goes to a tile, and scrolls it to where it can be seen.
  focus(at) {
    if (!(at >= 0 && at < this.total)) return;
    this.at = at;
    const top = this.top() + Math.floor(at / this.columns) * this.row, bar = byId("bar").offsetHeight + GAP;
    if (top - bar < scrollY) scrollTo(0, top - bar);
    else if (top + this.row > scrollY + innerHeight) scrollTo(0, top + this.row - innerHeight);
    this.render();
    this.tiles.get(at)?.firstChild.focus({preventScroll: true});
  }
}
