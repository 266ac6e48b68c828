
// One page: its pictures, what is known of it, and the ways to the pages beside it.
class PageView {
  // `place` finds the file at a position among those that are shown; `closed` is told the position of the last one.
  constructor(source, place, find, closed) {
    Object.assign(this, {source, place, find, closed, dialog: byId("details"), beside: null, shown: null});
  }

  // Shows a file; `position` is its place among the files that are found, if it was taken from there.
  async open(key, position, beside = null) {
    const [file, drawing, other] = await Promise.all([this.source.details(key), this.source.drawing(key),
      beside === null ? null : this.taken(beside)]);
    if (other) this.beside = other;
    Object.assign(this, {shown: {file, drawing}, position});
    this.draw();
    if (!this.dialog.open) this.dialog.showModal();
    this.dialog.scrollTop = 0;
    this.address();
  }

  // What another page shows, to stand beside this one.
  async taken(key) {
    const [file, drawing] = await Promise.all([this.source.details(key), this.source.drawing(key)]);
    return {file, drawing};
  }

  draw() {
    const {file, drawing} = this.shown;
    byId("details-title").textContent = file.name;
    byId("before").disabled = !(this.position > 0);
    byId("behind").disabled = this.position === undefined || this.position + 1 >= this.place.total();
    byId("details-body").replaceChildren(...this.parts(file, drawing));
    this.spellings(file).catch(tell);
  }

  // Puts the page's own address where the browser shows it.
  address() {
    const {file} = this.shown, other = this.beside ? "&beside=" + this.beside.file.hash.slice(0, 16) : "";
    const to = `#page=${file.hash.slice(0, 16)}${other}`;
    if (!file.hash || to === location.hash) return;
    if (location.hash.startsWith("#page=")) history.replaceState(null, "", to); else history.pushState(null, "", to);
  }

  close() {
    if (this.dialog.open) this.dialog.close();
  }

  // Advances to the next of the files that are found, or back.
  async step(by) {
    const position = this.position + by;
    if (this.position === undefined || position < 0) return;
    const found = await this.place.at(position);
    if (found) await this.open(found.key, position);
  }

  parts(file, drawing) {
    return [this.pictures(file, drawing), this.ways(file, drawing),
      facts([["Answer", file.answer], ["Kind", this.kind(file)], ["Bytes", number(file.size)],
        [file.refusal ? "Place of the refusal" : "Entries", number(file.entries)],
        ["Text begins", drawing.text ? "" : file.says || ""],
        ["Hash", file.hash ? make("code", {}, file.hash) : ""]]),
      ...(file.refusal ? this.reasons(file) : []), ...(file.equal ? this.equal(file.equal) : []),
      ...(file.near.length ? this.near(file) : []),
      ...this.words(drawing),
      ...(drawing.text ? [make("h3", {}, "Text"), longText("text of the page", drawing.text)] : []),
      ...(drawing.lines.length ? [make("h3", {}, this.extent(drawing)),
        longText("list of the page", this.list(drawing))] : [])];
  }

  // The page, and at its left the one that is held beside it.
  pictures(file, drawing) {
    const one = (it, isBeside) => make("figure", {}, picture(toShow(it.drawing, it.file), it.file.name), ...(this.beside
      ? [make("figcaption", {}, make("strong", {}, it.file.name + (isBeside ? " (held)" : "")))] : []));
    const shown = make("div", {className: this.beside ? "pictures two" : "pictures"},
      ...(this.beside ? [one(this.beside, true)] : []), one({file, drawing}, false));
    const isStill = this.beside || !toShow(drawing, file).sketch;
    return isStill ? shown : new PlayTab(shown, () => this.source.played(file.key)).whole;
  }

  // The page in words, as its sketch has them for those who don't see it.
  words(drawing) {
    const some = described(drawing);
    return some.length ? [make("h3", {}, "In words"), make("ul", {className: "words"},
      ...some.map((each) => make("li", {}, each)))] : [];
  }

  ways(file, drawing) {
    const button = (id, word, action) => make("button", {type: "button", id, onclick: doing(action)}, word);
    const hold = this.beside ? button("release", "Let the held page go", () => this.hold(null))
      : file.hash ? button("hold", "Hold it beside other pages", () => this.hold(this.shown)) : "";
    return make("div", {className: "ways"},
      ...(drawing.sketch ? [button("save", "Save as SVG", () => saved(drawing.sketch, file.name))] : []), hold);
  }

  // What a file is; of a capture also what gives its pages.
  kind(file) {
    if (file.kind !== CAPTURE) return file.kind;
    const words = command(`naplps-pages fix ${quoted(file.name)} -o fixed`);
    return make("div", {}, "capture: several pages, of which this shows the first; ", words, " cuts it into them");
  }

  hold(what) {
    this.beside = what;
    this.draw();
    this.address();
    byId(what ? "release" : "hold").focus();
  }

  reasons(file) {
    const refusal = file.refusal;
    const treatments = file.cure === null ? "" : file.cure
      ? `readable by ${file.cure}: the picture, the text and the list are those of the treated copy`
      : "none makes it readable";
    const twin = file.cure && file.equal && file.equal.members.find((each) => !each.treated);
    const draws = twin ? make("span", {}, "draws what ", link(twin.files[0].name, () => this.open(twin.files[0].key)),
      " draws") : "";
    return [make("h3", {}, "Why it is refused"), facts([["It means", refusal.means],
      ["It may come from", refusal.causes], ["What to do", refusal.do],
      ["Command", refusal.command && command(refusal.command.replace("PAGE", () => quoted(file.name)))],
      ["Treatments", treatments], ["The treated copy", draws]], "facts reasons")];
  }

  equal(group) {
    const size = [counted(group.files, "file"), counted(group.spellings, "spelling"),
      ...(group.copies ? [readable(group)] : [])].join(", ");
    return [make("h3", {}, `Equal pages: group ${group.number}, ${size}`), make("ul", {className: "equal"},
      ...group.members.map((each) => make("li", {}, make("div", {className: "thumb"}), ...this.spelling(each)))),
      ...this.others(group)];
  }

  // Pages that differ in one thing, or of which one is the beginning of the other.
  near(file) {
    const both = (each) => make("button", {type: "button", "aria-label": `${file.name} and ${each.name} side by side`,
      onclick: doing(() => this.open(each.key, undefined, file.key))}, "Side by side");
    return [make("h3", {}, "Almost equal pages"), make("ul", {className: "near"}, ...file.near.map((each) => make("li",
      {}, link(each.name, () => this.open(each.key)), `: ${each.told} `, both(each))))];
  }

  spelling(each) {
    const by = each.treated ? [", ", make("span", {className: "copy"}, madeBy(each.treated))] : [];
    return [make("h4", {}, `Spelling ${letters(each.spelling)}, ${counted(each.size, "byte")}`, ...by),
      make("ul", {}, ...each.files.map((file) => make("li", {}, link(file.name, () => this.open(file.key)))))];
  }

  // The files of a group that aren't named: how many they are, and a way to them.
  others(group) {
    const left = group.files - group.members.reduce((sum, each) => sum + each.files.length, 0);
    return left <= 0 ? [] : [link(`and ${counted(left, "more file")} of group ${group.number}`,
      () => this.find({text: "group " + group.number}))];
  }

  // The files of a group by their spellings, as many as there are, and a way to the others.
  members(group) {
    return [...group.members.flatMap((each) => this.spelling(each)), ...this.others(group)];
  }

  // Pictures of all spellings of a page, side by side.
  async spellings(file) {
    const boxes = byId("details-body").querySelectorAll(".equal .thumb");
    await Promise.all([...boxes].map(async (box, at) => {
      const first = file.equal.members[at].files[0];
      box.replaceChildren(picture(cropped(await this.source.thumbnail(first.key)), first.name));
    }));
  }

  extent(drawing) {
    const told = drawing.counts.reduce((sum, count) => sum + count, 0), end = drawing.first + told;
    if (told === drawing.entries) return "List: " + counted(drawing.entries, "entry", "entries");
    return `List: entries ${number(drawing.first + 1)} to ${number(end)} of ${number(drawing.entries)}`;
  }

  list(drawing) {
    let at = drawing.first + 1;
    const numbers = drawing.counts.map((count) => [at, at += count][0]);
    return drawing.lines.map((line, row) => String(numbers[row]).padStart(5) + "  " + line).join("\n");
  }

  listen() {
    byId("close").onclick = () => this.close();
    byId("before").onclick = doing(() => this.step(-1));
    byId("behind").onclick = doing(() => this.step(1));
    this.dialog.onclick = (event) => event.target === this.dialog && this.close();
    this.dialog.onclose = () => this.closed(this.position);
    this.dialog.onkeydown = doing((event) => {
      const by = {ArrowLeft: -1, ArrowRight: 1}[event.key];
      return by && event.target.tagName !== "PRE" ? this.step(by) : undefined;
    });
  }
}
