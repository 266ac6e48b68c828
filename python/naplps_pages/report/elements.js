
// Elements of the page, and what is shown as numbers, words and pictures.
const byId = (id) => document.getElementById(id);
const number = (value) => value === null || value === undefined ? "" : Number(value).toLocaleString("en");
const counted = (value, one, more) => number(value) + " " + (value === 1 ? one : more || one + "s");
// A name as a shell and a command read it, never as an option; PAGE where an escape stands for what can't be shown.
const quoted = (name) => name.includes("\\") ? "PAGE" : quotedPath(name.startsWith("-") ? "./" + name : name);
const quotedPath = (path) => /^[\w@%+=:,./-]+$/.test(path) ? path : "'" + path.replaceAll("'", "'\"'\"'") + "'";
const oneLine = (text) => text.replace(/\s+/g, " ").trim().slice(0, 200);

// An element. Texts are set as texts, never as markup.
function make(tag, properties, ...children) {
  const element = document.createElement(tag);
  for (const [name, value] of Object.entries(properties || {})) {
    if (name in element) element[name] = value; else element.setAttribute(name, value);
  }
  element.append(...children);
  return element;
}

// 0 is A, 25 is Z, 26 is AA.
function letters(value) {
  return (value >= 26 ? letters(Math.floor(value / 26) - 1) : "") + String.fromCharCode(65 + value % 26);
}

function tell(error) {
  const fault = byId("fault");
  fault.textContent = "Something couldn't be shown: " + (error.message || error);
  fault.hidden = false;
  document.body.dataset.fault = fault.textContent;
}

// The kinds of files: one that has several pages, and one that draws nothing.
const CAPTURE = "capture", BLANK = "blank", LOOKS_LIKE = "looks like ";
const isTreated = (file) => file.treated !== "";
// Whether a file is a page, or was one before something happened to it; a readable copy says so.
const isPage = (file) => ["", "page", CAPTURE].includes(file.kind) || isTreated(file);
// What a file is that isn't a page, in a word or two.
const kindOf = (file) => file.kind.startsWith(LOOKS_LIKE) ? file.kind.slice(LOOKS_LIKE.length) : file.kind;

// An answer without its number: "6 LeftOut CAN" is "refused: left out CAN".
function inWords(answer) {
  const [, name, rest] = /^[0-9]+ (\w+)(.*)$/.exec(answer) || [];
  return name ? `refused: ${name.replace(/\B[A-Z]/g, (letter) => " " + letter).toLowerCase()}${rest}` : answer;
}

// By what a readable copy was made: the treatments, and whether they are a guess.
function madeBy(treated) {
  const [names] = treated.split(" ");
  return treated.includes("guess") ? `guess: ${names}` : `readable by ${names}`;
}

const doing = (action) => (event) => Promise.resolve(action(event)).catch(tell);

// A button that looks like a link. `label` says more than its text where that isn't enough.
function link(text, action, label) {
  const more = label ? {"aria-label": label} : {};
  return make("button", {type: "button", className: "name", onclick: doing(action), ...more}, text);
}

// Names with what is said of each; those of which nothing is to be said are left out.
function facts(pairs, className = "facts") {
  return make("dl", {className}, ...pairs.filter(([, value]) => value !== "" && value !== null).flatMap(
    ([name, value]) => [make("dt", {}, name), make("dd", {}, value)]));
}

function longText(label, text) {
  return make("pre", {tabIndex: 0, role: "region", "aria-label": label}, text);
}

// A command to be copied, whose words aren't cut at their dashes.
function command(text) {
  const words = text.split(" ").flatMap((word, at) => [at ? " " : "", make("span", {}, word)]);
  return make("code", {className: "command"}, ...words);
}

// What stands in place of a picture: why there is none, and the commands that make one.
function instead(why, ...commands) {
  const some = commands.flatMap((each, at) => [at ? " or " : " ", command(each)]);
  return make("div", {className: "none"}, make("p", {}, why, ...some));
}

// The same drawing where it has anything to show of a file.
function toShow(drawing, file) {
  const isEmpty = drawing.sketch && drawing.entries === 0;
  if (isEmpty) return {sketch: "", why: (file.kind === BLANK ? "Blank: n" : "N") + "othing is drawn"};
  return isPage(file) || !file.kind.startsWith(LOOKS_LIKE) ? drawing : {sketch: "", why: "It " + file.kind};
}

// The sketch as an image of its own, in which nothing can act; or why there is none.
function picture(drawing, name) {
  if (!drawing.sketch) return instead(drawing.why || "No sketch", ...(drawing.commands || []));
  const url = URL.createObjectURL(new Blob([drawing.sketch], {type: "image/svg+xml"}));
  const words = oneLine(drawing.text);
  const size = /viewBox="0 -?[0-9]+ ([0-9]+) ([0-9]+)"/.exec(drawing.sketch) || ["", 1024, 828];
  const image = make("img", {width: Number(size[1]), height: Number(size[2]),
    alt: `Sketch of ${name}, ${words ? "with the text: " + words : "without text"}`});
  image.onload = image.onerror = () => URL.revokeObjectURL(url);
  image.src = url;
  return image;
}

// The same drawing without the strip below the screen, and without what is above it: for thumbnails.
function cropped(drawing) {
  if (drawing.sketch && drawing.entries === 0) return {...drawing, sketch: "", why: "nothing drawn"};
  if (!drawing.sketch) return {...drawing, why: drawing.why || "No sketch"};
  const head = 'viewBox="0 0 1024 800" width="1024" height="800"';
  return {...drawing, sketch: drawing.sketch.replace(/viewBox="[-0-9 ]+" width="[0-9]+" height="[0-9]+"/, head)};
}

// Gives the sketch to the browser as a file, named after the page.
function saved(sketch, name) {
  const url = URL.createObjectURL(new Blob([sketch], {type: "image/svg+xml"}));
  const leaf = name.slice(name.lastIndexOf("/") + 1).replace(/[^\w .,()+=@-]/g, "_").slice(0, 120) || "page";
  make("a", {href: url, download: leaf + ".svg"}).click();
  setTimeout(() => URL.revokeObjectURL(url), 60000);
}

// What the sketch says of itself: the page in words, and what it leaves out.
function described(drawing) {
  if (!drawing.sketch) return [];
  const found = new DOMParser().parseFromString(drawing.sketch, "image/svg+xml").querySelector("desc");
  return found ? found.textContent.split("; ") : [];
}

// Whether parts of the page blink, by the caption of its sketch.
const blinks = (drawing) => /^<svg [^>]*><title>[^<]*; parts of it blink<\/title>/.test(drawing.sketch || "");

// A part of a long list, with the buttons that lead to the others.
class Pager {
  // `name` names the list and its pager; `draw` makes an element of each thing that `ask` finds.
  constructor(name, count, one, ask, draw) {
    Object.assign(this, {box: byId(name), count, one, ask, draw, from: 0, total: 0, turn: 0});
    // (neither leads anywhere until the first part is there)
    const button = (word, by) => make("button", {type: "button", "aria-label": `${word} in the ${one}s`,
      disabled: true, onclick: doing(() => this.show(this.from + by))}, word);
    this.back = button("Back", -count);
    this.next = button("Next", count);
    this.told = make("span", {role: "status"});
    byId(name + "-pager").append(this.back, this.told, this.next);
  }

  // Shows the part that begins there, unless another was asked for meanwhile.
  async show(from) {
    const turn = ++this.turn;
    const found = await this.ask(from, this.count);
    const elements = await Promise.all(this.draw(found, from));
    if (turn !== this.turn) return;
    Object.assign(this, {from, total: found.total});
    const end = Math.min(from + this.count, this.total), all = counted(this.total, this.one);
    this.box.replaceChildren(...elements);
    this.told.textContent = this.total ? `${number(from + 1)} to ${number(end)} of ${all}` : `no ${this.one}s`;
    this.back.disabled = from === 0;
    this.next.disabled = end >= this.total;
  }
}
