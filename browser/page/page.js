// The page: a wall of the files that were dropped, one page with its player and list, and a page that is made of lines.
// (`Player` is that of python/naplps_pages/player.)

import { Asking } from "./asking.js";
import { MOST_FILES, chosenFiles, droppedFiles, readFiles } from "./files.js";
import { Allowance } from "./keeping.js";
import { looksBy } from "./looks.js";
import { node } from "./node.js";
import { csvOf, save, zipOf } from "./saving.js";

const held = (id) => document.getElementById(id).textContent;
const byId = (id) => document.getElementById(id);
const bytesOf = (text) => Uint8Array.from(atob(text), (letter) => letter.charCodeAt(0));
const utf8 = new TextEncoder();
const refusals = JSON.parse(held("refusals")), lookOf = looksBy(JSON.parse(held("kinds")));
const asking = new Asking(held("worker"), bytesOf(held("module")));
// How many cards come onto the wall at once, and how many names are shown of pages that are the same.
const MOST_FRESH = 24, SHOWN_SAME = 5;
// What a card says of an accepted page without a canonical stream here.
const NOT_MADE = "Its canonical stream isn't made: that takes more than the 64 MiB of memory that a page has here. So "
  + "it isn't compared with other files.";
const NOT_KEPT = "Its canonical stream isn't kept: with those of the other files it has more than 128 MiB.";
const pages = [], groups = new Map();
// The pages of pictures, and which pictures are in view and which are being painted.
const pictures = new Map(), inView = new Set(), painting = new Set();
const fileAllowance = new Allowance(), streamAllowance = new Allowance();
const stem = (name) => name.replace(/\.[^./]*$/, "");
const spell = (count, one, more = `${one}s`) => `${count.toLocaleString("en")} ${count === 1 ? one : more}`;
const isAccepted = (page) => Boolean(page.answer?.accepted);
const button = (word, action) => node("button", { type: "button", onclick: action }, word);

// What is said of a refusal: of its code, or of the refusal alone.
const reasonOf = ({ number, name }) => {
  const [first, code] = name.split(" ");
  return refusals[`${number} ${first} ${code}`] || refusals[`${number} ${first}`];
};

// ---- the wall

// Pictures are asked for when their cards are seen, and let go when they aren't.
const seen = new IntersectionObserver((entries) => {
  for (const { target, isIntersecting } of entries) {
    if (isIntersecting) {
      inView.add(target);
      paint(target, pictures.get(target));
    } else {
      inView.delete(target);
      hide(target);
    }
  }
}, { rootMargin: "300px" });

// A question on a page. A file whose bytes aren't kept is read again.
const question = (ask, { bytes, file, own, name }) => ({ ask, words: name, ...(bytes ? { bytes } : { file, own }) });

async function paint(image, page) {
  if (painting.has(image)) return;
  painting.add(image);
  const answer = await asking.ask(question("svg", page), false, () => inView.has(image));
  painting.delete(image);
  if (answer?.svg && inView.has(image)) show(image, answer.svg);
  if (!answer || answer.svg) return;
  seen.unobserve(image);
  image.alt = answer.tooLong ? `${page.name}: too long to be drawn here` : `${page.name}: ${answer.fault}`;
}

// Shows a picture, as an image: what it has is drawn, and acts on nothing.
function show(image, svg) {
  const address = URL.createObjectURL(new Blob([svg], { type: "image/svg+xml" }));
  image.onload = image.onerror = () => URL.revokeObjectURL(address);
  image.src = address;
}

// The image of a page, which has no picture yet.
function blank(page) {
  const alt = `picture of ${page.name}`;
  const image = node("img", { alt, width: 400, height: 313, className: "picture-of-page" });
  pictures.set(image, page);
  seen.observe(image);
  return image;
}

// Puts a new image in the place of one, and so lets its picture go. (An image whose source is removed loses its size.)
function hide(image) {
  if (!image.hasAttribute("src")) return;
  seen.unobserve(image);
  image.replaceWith(blank(pictures.get(image)));
  pictures.delete(image);
}

function card(page) {
  const reason = page.answer && !page.answer.accepted ? reasonOf(page.answer) : null;
  page.same = node("p", { className: "dim" });
  const buttons = page.answer ? [button("Details", () => detail(page))] : [];
  if (page.canonical) buttons.push(button("Save canonical", () => save([page.canonical], `${stem(page.name)}.nap`)));
  if (page.answer) buttons.push(button("Save SVG", () => saveSvg(page)));
  return node("article", { className: "card" }, ...(page.answer ? [blank(page)] : []),
    node("h2", {}, page.name), node("p", { className: isAccepted(page) ? "accepted" : "fault" }, page.told),
    ...(page.lack ? [node("p", {}, page.lack)] : []),
    ...(page.look ? [node("p", {}, `It looks like ${page.look}.`)] : []),
    ...(reason ? [node("p", {}, reason.means)] : []), page.same, node("div", { className: "bar" }, ...buttons));
}

async function saveSvg(page) {
  const answer = await asking.ask(question("svg", page), true);
  if (answer.svg) save([answer.svg], `${stem(page.name)}.svg`, "image/svg+xml");
  else tell(`${page.name} has no picture here: ${answer.fault || "it is too long"}`);
}

const tell = (text) => {
  byId("counted").textContent = text;
};

// Says what went wrong, until something else does.
function complain(text) {
  byId("fault").textContent = text;
  byId("fault").hidden = false;
}

// Says on the cards which pages are the same.
function tellSame() {
  for (const group of groups.values()) {
    if (group.length < 2) continue;
    for (const page of group) {
      const others = group.slice(0, SHOWN_SAME + 1).filter((other) => other !== page).slice(0, SHOWN_SAME);
      const more = group.length - 1 - others.length;
      const names = others.map((other) => other.name).join(", ");
      page.same.textContent = `The same as ${names}${more ? `, and ${more} more` : ""}`;
    }
  }
}

// Says how many pages there are.
function count() {
  const accepted = pages.filter(isAccepted).length, lacking = pages.filter((page) => page.lack).length;
  const equal = [...groups.values()].filter((group) => group.length > 1).length;
  tell(`${spell(pages.length, "file")}: ${accepted} accepted, ${pages.length - accepted} not; `
    + `${spell(groups.size, "different page")}, ${equal} of them more than once`
    + (lacking ? `; ${spell(lacking, "accepted page has", "accepted pages have")} no canonical stream here` : ""));
  for (const id of ["table", "zip"]) byId(id).disabled = !pages.length;
}

// What is known of a file, with what of it is kept.
async function pageOf({ name, file, bytes, told: why }) {
  if (!bytes) return { name, told: why, size: file.size };
  const { answer, told, canonical, key, own, fault } = await asking.ask({ ask: "check", bytes });
  if (fault) return { name, told: fault, size: bytes.length };
  const page = { name, file, own, answer, told, key, size: bytes.length, bytes: fileAllowance.take(bytes),
    canonical: streamAllowance.take(canonical), look: answer.accepted ? "" : lookOf(bytes) };
  return { ...page, lack: answer.accepted && !page.canonical ? (key ? NOT_KEPT : NOT_MADE) : "" };
}

// Keeps a page, and puts its card among those that come onto the wall together.
function take(page, fresh) {
  pages.push(page);
  fresh.append(card(page));
  if (!page.key) return;
  if (!groups.has(page.key)) groups.set(page.key, []);
  groups.get(page.key).push(page);
}

// Reads files, and puts their cards onto the wall.
async function add(all) {
  const fresh = document.createDocumentFragment(), files = all.slice(0, MOST_FILES);
  if (all.length > files.length) complain(`Only the first ${spell(MOST_FILES, "file")} of those are read.`);
  let last = performance.now();
  for await (const source of readFiles(files)) {
    take(await pageOf(source), fresh);
    if (fresh.childElementCount >= MOST_FRESH || performance.now() - last > 500) {
      byId("wall").append(fresh);
      count();
      last = performance.now();
    }
  }
  byId("wall").append(fresh);
  count();
  tellSame();
  document.body.dataset.read = String(pages.length);
}

// ---- one page

// What the player holds of a page. Its rows are the bytes up to each place at which entries came.
function played({ size: length }, { places, lines, drawn, beginning }) {
  const ends = places.map((place) => Math.min(place + 1, length));
  const rows = [...new Set(ends)], rowOf = new Map(rows.map((end, at) => [end, at]));
  const codes = { start: rows.map((_, at) => (at ? rows[at - 1] : 0)), end: rows, name: rows.map(() => 0),
    names: ["bytes"], entry: ends.map((end) => rowOf.get(end)) };
  let bytes = "";
  for (let at = 0; at < beginning.length; at += 4096) {
    bytes += String.fromCharCode(...beginning.subarray(at, at + 4096));
  }
  return { length, before: 0, entries: lines.length, places, lines, codes, isCut: false, bytes: btoa(bytes),
    notes: [], drawing: drawn };
}

async function detail(page) {
  const box = byId("detail"), answer = await asking.ask(question("open", page), true);
  const reason = page.answer.accepted ? null : reasonOf(page.answer);
  const said = (name, text) => (text ? [node("p", {}, node("b", {}, name), ` ${text}`)] : []);
  const player = node("div", {}), close = button("Close", () => {
    box.hidden = true;
  });
  const listed = answer.lines ? node("details", {},
    node("summary", {}, spell(answer.lines.length, "entry", "entries")),
    node("pre", { tabIndex: 0 }, answer.lines.join("\n")))
    : node("p", {}, answer.fault || "It is too long to be listed.");
  box.replaceChildren(close, node("h2", {}, page.name), node("p", {}, page.told),
    ...(reason ? [...said("What it means:", reason.means), ...said("It may come from:", reason.causes),
      ...said("What can be done:", reason.do)] : []), player, listed);
  box.hidden = false;
  if (answer.lines) new Player(player, played(page, answer));
  box.scrollIntoView();
  close.focus();
}

// ---- making

let drafts = 0;

async function make() {
  const draft = ++drafts, text = byId("lines").value.replaceAll("\r\n", "\n");
  const bytes = utf8.encode(text === "" || text.endsWith("\n") ? text : `${text}\n`);
  const { told, canonical, svg, fault } = await asking.ask({ ask: "make", bytes }, true);
  if (draft !== drafts) return;  // (more was typed meanwhile)
  byId("made").textContent = fault || told;
  byId("made").className = canonical ? "" : "fault";
  byId("keep").disabled = !canonical;
  byId("keep").onclick = () => save([canonical], "page.nap");
  if (canonical) show(byId("draft"), svg);
}

// ---- the beginning

function saveTable() {
  const numbers = new Map([...groups.keys()].map((key, at) => [key, at + 1]));
  const rows = pages.map(({ name, size, answer, told, key }) => [name, size, told.split(" ")[0],
    answer?.entries, answer?.number, answer?.name, answer?.place, numbers.get(key)]);
  const head = ["name", "bytes", "status", "entries", "number", "fault", "place", "same"];
  save([csvOf([head, ...rows])], "pages.csv", "text/csv");
}

const saveZip = () => save(zipOf(pages.filter((page) => page.canonical).map((page) => [page.name, page.canonical])),
  "canonical.zip", "application/zip");

function listen() {
  byId("files").onchange = byId("folder").onchange = (event) => add(chosenFiles(event.target.files));
  byId("table").onclick = saveTable;
  byId("zip").onclick = saveZip;
  byId("making").ontoggle = () => byId("making").open && make();
  byId("lines").oninput = make;
  addEventListener("dragover", (event) => event.preventDefault());
  addEventListener("drop", async (event) => {
    event.preventDefault();
    const { files, isPartial } = await droppedFiles(event.dataTransfer);
    if (isPartial) byId("note").hidden = false;
    add(files);
  });
  addEventListener("keydown", (event) => {
    if (event.key === "Escape" && !event.defaultPrevented) byId("detail").hidden = true;
  });
}

async function begin() {
  const { fault } = await asking.ask({ ask: "make", bytes: new Uint8Array() });
  if (fault) throw new Error(fault);
  listen();
  document.body.dataset.ready = "yes";
}

begin().catch((error) => {
  complain(`The reader can't start: ${error.message || error}`);
  document.body.dataset.fault = String(error.message || error);
});
