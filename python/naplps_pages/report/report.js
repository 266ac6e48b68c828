
// What is shown, whatever the source: the wall, files, groups, and one page.
const FILES = 100, GROUPS = 12, NAMES = 8, VIEWS = ["pages", "list", "equal", "summary"];
const HASH_DIGITS = 64;
// (there is no field where there is nothing to choose)
const FIELDS = ["text", "kind", "answer", "cure", "folder", "order"].filter(byId);
const BOXES = ["once", "others"].filter(byId);

// How many files of a group have readable copies that draw what it draws.
const readable = (group) => counted(group.copies, "readable copy", "readable copies");

class Report {
  constructor(source) {
    this.source = source;
    this.view = VIEWS[0];
    this.groups = new Pager("groups", GROUPS, "group",
      (from, count) => source.groups({copies: byId("copies").checked, from, count, names: NAMES}),
      (found) => found.groups.map((group) => this.group(group)));
    this.files = new Pager("files", FILES, "file", (from, count) => this.search(from, count, false),
      (found, from) => found.files.map((file, at) => this.row(file, from + at)));
    this.wall = new Wall(byId("wall"), (from, count) => this.search(from, count, true),
      (key) => source.thumbnail(key), (key, at) => this.page.open(key, at), (file) => this.label(file));
    this.wall.told = (from, end) => this.told(from, end);
    this.page = new PageView(source, this.place(), (words) => this.find(words), (position) => this.closed(position));
  }

  // The words of the form.
  words() {
    return Object.fromEntries([...FIELDS.map((name) => [name, byId(name).value.trim()]),
      ...BOXES.map((name) => [name, byId(name).checked])]);
  }

  // A part of the files that are found; or of those alone that have a page.
  search(from, count, pages = this.view === "pages") {
    return this.source.files({...this.words(), pages, from, count});
  }

  // How a page finds those beside it.
  place() {
    return {total: () => (this.view === "list" ? this.files : this.wall).total,
            at: async (position) => (await this.search(position, 1)).files[0]};
  }

  // What stands below a thumbnail, in words.
  label(file) {
    const isKnown = file.answer === "accepted" || file.kind === CAPTURE || !isPage(file);
    const some = [file.kind === CAPTURE ? CAPTURE : "",
      isTreated(file) ? madeBy(file.treated) : isKnown ? "" : inWords(file.answer)];
    if (byId("order").value === "group" && file.group) some.push("group " + file.group);
    return some.filter(Boolean).join(", ");
  }

  told(from, end) {
    const total = this.wall.total;
    byId("wall-told").textContent = total ? `${number(from + 1)} to ${number(end)} of ${counted(total, "page")}`
      : "no pages";
  }

  async group(group) {
    const title = "Group " + group.number, drawing = await this.source.thumbnail(group.key);
    const words = oneLine(drawing.text);
    const sketch = make("button", {type: "button", className: "sketch", onclick: doing(() => this.page.open(group.key)),
      "aria-label": `Details of group ${group.number}` + (words ? ", with the text: " + words : "")},
      picture(cropped(drawing), title));
    const size = [counted(group.files, "file"), counted(group.spellings, "spelling"),
      counted(group.entries, "entry", "entries"), ...(group.copies ? [readable(group)] : [])];
    return make("li", {}, sketch, make("h3", {}, title), make("div", {}, size.join(", ")),
      make("div", {className: "dim", title: "so the hash of the canonical bytes begins"},
        make("code", {}, group.canonical.slice(0, 16))),
      ...this.page.members(group));
  }

  row(file, position) {
    const cell = (label, className, content) => {
      const made = make("td", {className}, content);
      made.dataset.label = label;
      return made;
    };
    const group = file.group ? link(String(file.group), () => this.find({text: "group " + file.group}),
      "files of group " + file.group) : "";
    const name = make("td", {}, link(file.name, () => this.page.open(file.key, position)));
    if (file.says) name.append(make("div", {className: "dim says"}, file.says));
    return make("tr", {}, name, cell("bytes", "number", number(file.size)), make("td", {}, file.answer),
      cell(file.answer === "accepted" ? "entries" : "place", "number", number(file.entries)), cell("group", "", group));
  }

  // Shows the files with these words, and goes there.
  async find(words) {
    for (const name of FIELDS) byId(name).value = words[name] || "";
    for (const name of BOXES) byId(name).checked = name === "others" && Object.keys(words).length > 0;
    this.page.close();
    this.show(this.view === "pages" ? "pages" : "list");
    history.replaceState(null, "", "#" + this.view);
    await this.refresh();
    byId("bar").scrollIntoView();
    byId(this.view + "-title").focus({preventScroll: true});
  }

  // Shows the filters where they have no room by themselves, or only the button for them.
  unfold(isOpen) {
    byId("filters").setAttribute("aria-expanded", isOpen);
    byId("bar").classList.toggle("open", isOpen);
  }

  async refresh() {
    const chosen = FIELDS.slice(1).filter((name) => byId(name).value).length
      + BOXES.filter((name) => byId(name).checked).length;
    byId("filters").textContent = chosen ? `Filters (${chosen})` : "Filters";
    await Promise.all([this.wall.show(), this.files.show(0)]);
    this.nothing("wall", this.wall.total, "pages");
    this.nothing("files", this.files.total, "files");
  }

  // Says where nothing is found, with a way back to everything.
  nothing(name, total, what) {
    const isAll = FIELDS.every((field) => !byId(field).value);
    const back = make("button", {type: "button", onclick: doing(() => this.find({}))}, "Show all " + what);
    const others = byId("others"), isHiding = what === "pages" && others && !others.checked && !this.words().kind;
    const more = make("button", {type: "button", onclick: doing(() => others.click())}, "Show also what is no page");
    byId(name + "-none").replaceChildren(...(total ? [] : [`There are no such ${what}.`, ...(isAll ? [] : [" ", back]),
      ...(isHiding ? [" ", more] : [])]));
  }

  // Shows one of the views; the others are there for print alone.
  show(view) {
    this.view = view;
    for (const each of VIEWS) byId("view-" + each).hidden = each !== view;
    byId("bar").hidden = view !== "pages" && view !== "list";
    byId("wall-told").hidden = view !== "pages";
    byId("files-pager").hidden = view !== "list";
    for (const link of document.querySelectorAll("nav a")) {
      if (link.hash !== "#" + view) link.removeAttribute("aria-current");
      else link.setAttribute("aria-current", "page");
    }
    if (view === "pages") this.wall.measure();
  }

  // What the address asks for: a view, or a page.
  async go() {
    const words = new URLSearchParams(location.hash.slice(1)), hash = words.get("page");
    if (hash) return this.goTo(hash, words.get("beside"));
    this.page.close();
    if (VIEWS.includes(location.hash.slice(1))) this.show(location.hash.slice(1));
    return undefined;
  }

  async goTo(hash, beside) {
    // (no longer one is that of a page, and a server reads no address of any length)
    const long = [hash, beside || ""].find((each) => each.length > HASH_DIGITS);
    if (long) throw new Error("there is no page of the hash " + long.slice(0, HASH_DIGITS));
    const found = await this.source.find({...this.words(), pages: this.view === "pages", hash});
    const other = beside ? await this.source.find({...this.words(), pages: true, hash: beside}) : null;
    if (!found) throw new Error("there is no page of the hash " + hash.slice(0, HASH_DIGITS));
    await this.page.open(found.key, found.position < 0 ? undefined : found.position, other && other.key);
  }

  closed(position) {
    if (location.hash.startsWith("#page=")) history.replaceState(null, "", "#" + this.view);
    this.page.beside = null;
    if (this.view === "pages" && position !== undefined) this.wall.focus(position);
  }

  listen() {
    let waiting = 0;
    byId("text").oninput = () => {
      clearTimeout(waiting);
      waiting = setTimeout(doing(() => this.refresh()), 150);
    };
    for (const name of [...FIELDS.slice(1), ...BOXES]) byId(name).onchange = doing(() => this.refresh());
    byId("filters").onclick = () => this.unfold(byId("filters").getAttribute("aria-expanded") !== "true");
    byId("copies").onchange = doing(() => this.groups.show(0));
    for (const form of document.forms) form.onsubmit = (event) => event.preventDefault();
    for (const button of document.querySelectorAll("[data-answer]")) {
      button.onclick = doing(() => this.find({answer: button.dataset.answer}));
    }
    this.page.listen();
    addEventListener("hashchange", doing(() => this.go()));
  }
}

(async () => {
  const report = new Report(await SOURCE.open());
  report.listen();
  const view = location.hash.slice(1);
  report.show(VIEWS.includes(view) ? view : VIEWS[0]);
  await report.refresh();
  // (an address may lead to a page that isn't there any more; the report is there all the same)
  await report.go().catch(tell);
  document.body.dataset.ready = String(Math.round(performance.now()));
  await report.wall.rest();  // (what is seen first comes first)
  await report.groups.show(0);
})().catch(tell);
