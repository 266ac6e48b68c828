
// The codes of a page in rows: offset, bytes, name, and the entries that came of it. Only the rows that are seen exist.

const ROW_HIGH = 24, BEYOND = 6, BYTES_IN_ROW = 8;

// An element of the page. What it says is set as text, never as markup.
function node(tag, properties, ...children) {
  const element = document.createElement(tag);
  for (const [name, value] of Object.entries(properties)) {
    if (name in element) element[name] = value; else element.setAttribute(name, value);
  }
  element.append(...children);
  return element;
}

class Codes {
  // `choose` is called with the number of a row.
  constructor(data, choose) {
    Object.assign(this, {data, choose, now: -1, chosen: -1});
    this.starts = data.codes.start;
    this.entries = this.starts.map(() => []);
    data.codes.entry.forEach((row, entry) => row >= 0 && this.entries[row].push(entry));
    this.inside = node("div", {className: "codes-inside", role: "presentation"});
    this.inside.style.height = this.starts.length * ROW_HIGH + "px";
    this.box = node("div", {className: "codes", tabIndex: 0, role: "listbox",
      "aria-label": "bytes of the page, by codes", onscroll: () => this.draw(),
      onkeydown: (event) => this.key(event)}, this.inside);
    this.box.onclick = (event) => {
      const row = event.target.closest("[data-row]");
      if (row) this.choose(Number(row.dataset.row));
    };
  }

  // The row with the byte at an offset.
  rowOf(offset) {
    return upTo(this.starts, (start) => start <= offset) - 1;
  }

  rowOfEntry(entry) {
    return this.data.codes.entry[entry];
  }

  // Marks the row that came last, and the one that is chosen; the list goes to one of them.
  set(now, chosen, to) {
    Object.assign(this, {now, chosen});
    if (to >= 0) this.scroll(to);
    this.draw();
  }

  scroll(row) {
    const top = row * ROW_HIGH, high = this.box.clientHeight;
    if (top < this.box.scrollTop || top + ROW_HIGH > this.box.scrollTop + high) {
      this.box.scrollTop = Math.max(0, top - high / 3);
    }
  }

  draw() {
    const first = Math.max(0, Math.floor(this.box.scrollTop / ROW_HIGH) - BEYOND);
    const count = Math.ceil((this.box.clientHeight || 300) / ROW_HIGH) + 2 * BEYOND;
    const rows = this.starts.slice(first, first + count).map((_, at) => this.row(first + at));
    this.inside.replaceChildren(...rows);
    this.box.setAttribute("aria-activedescendant", this.chosen >= 0 ? "code-" + this.chosen : "");
  }

  row(at) {
    const codes = this.data.codes;
    const row = node("div", {className: "code", role: "option", id: "code-" + at, "aria-selected": at === this.chosen,
      "aria-posinset": at + 1, "aria-setsize": this.starts.length,
      title: [this.told(at), this.brought(at)].filter(Boolean).join(", ")},
    node("span", {className: "offset"}, String(codes.start[at])), node("span", {className: "bytes"}, this.bytes(at)),
    node("span", {className: "named"}, codes.names[codes.name[at]]),
    node("span", {className: "brought"}, this.brought(at)));
    row.dataset.row = String(at);
    if (at === this.now) row.dataset.now = "yes";
    row.style.top = at * ROW_HIGH + "px";
    return row;
  }

  // Which bytes a row has, and what they are.
  told(at) {
    const {start, end, name, names} = this.data.codes, [first, last] = [start[at], end[at] - 1];
    const numbers = [first, last].map((each) => each.toLocaleString("en"));
    return `${first < last ? `Bytes ${numbers.join(" to ")}` : `Byte ${numbers[0]}`}: ${names[name[at]] || "no code"}`;
  }

  bytes(at) {
    const start = this.starts[at], end = this.data.codes.end[at], some = Math.min(end, start + BYTES_IN_ROW);
    const shown = this.data.bytes.slice(start, some);
    return Array.from(shown, (byte) => byte.toString(16).padStart(2, "0")).join(" ") + (end > some ? " .." : "");
  }

  brought(at) {
    const entries = this.entries[at];
    if (entries.length > 2) return entries.length + " entries";
    return entries.map((entry) => this.data.lines[entry].split(" ", 1)[0]).join(", ");
  }

  key(event) {
    const by = {ArrowUp: -1, ArrowDown: 1, PageUp: -10, PageDown: 10}[event.key];
    if (!by || !this.starts.length) return;
    event.preventDefault();
    event.stopPropagation();
    const from = this.chosen >= 0 ? this.chosen : this.now;
    this.choose(Math.max(0, Math.min(this.starts.length - 1, from + by)));
  }
}
