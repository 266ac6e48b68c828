// What reads pages in a worker, so that the page answers at once: it is ended where one takes too long.

import { Naplps, describe } from "../module/naplps.mjs";
import { markup, picture } from "../picture.js";
import { drawingOf } from "../playing.js";
import { sha256 } from "./sha256.js";

// The most entries that are listed here, and the most bytes of a page that its player shows.
const MOST_LISTED = 100000, MOST_SHOWN = 1 << 20;
// The most bytes of memory that the module may have, and the number of the refusal of a page that needs more.
const MOST_MEMORY = 1 << 26, MEMORY = 21;
const ascii = new TextDecoder("ascii");
let naplps;

// The lines of a list, without their ends.
const linesOf = (bytes) => ascii.decode(bytes).split("\n").slice(0, -1);

// What is said of a page, and its canonical stream, if it is accepted and memory suffices. Two pages that have streams
// are the same exactly if they have one `key`. `own` is the SHA-256 of the file.
function check({ bytes }) {
  const answer = naplps.check(bytes), canonical = (answer.accepted && naplps.canon(bytes).bytes) || null;
  const key = canonical ? `${canonical.length} ${sha256(canonical)}` : "";
  return { answer, told: describe(answer), canonical, key, own: sha256(bytes) };
}

// The lines of a page with their places, and its drawing; of a refused page, what comes before.
function open({ bytes }) {
  const answer = naplps.check(bytes);
  if (answer.accepted && answer.entries > MOST_LISTED) return { tooLong: true };
  const list = naplps.places(bytes);
  if (list.number === MEMORY) return { tooLong: true };
  const rows = linesOf(list.bytes).slice(0, MOST_LISTED);
  const places = rows.map((row) => Number(row.slice(0, row.indexOf(" "))));
  const lines = rows.map((row) => row.slice(row.indexOf(" ") + 1));
  return { places, lines, drawn: drawingOf(lines), beginning: bytes.slice(0, MOST_SHOWN) };
}

// The picture of a page as SVG; of a refused page, what comes before.
function svg({ bytes, words }) {
  const { drawn, tooLong } = open({ bytes });
  return tooLong ? { tooLong } : { svg: markup(picture(drawn, words)) };
}

// The page that lines make, or the first line that is wrong.
function make({ bytes }) {
  const answer = naplps.make(bytes), made = answer.accepted ? answer.bytes : null;
  return { answer, told: describe(answer), canonical: made,
    svg: made ? markup(picture(drawingOf(linesOf(naplps.list(made).bytes)), "the page of these lines")) : "" };
}

const ASKED = { check, make, open, svg };

// The bytes of a file that is read again: it has to be as it was.
async function readAgain({ file, own }) {
  const bytes = new Uint8Array(await file.arrayBuffer().catch((error) => {
    throw new Error(`not read: ${error.message}`);
  }));
  if (sha256(bytes) !== own) throw new Error("not read: the file has changed");
  return bytes;
}

// Answers a question on bytes, which come with it or are those of a file.
async function answerTo(data) {
  if (data.module) {
    naplps = new Naplps(new WebAssembly.Module(data.module), { memory: MOST_MEMORY });
    return {};
  }
  return ASKED[data.ask](data.file ? { ...data, bytes: await readAgain(data) } : data);
}

self.onmessage = ({ data }) => {
  answerTo(data).then(
    (answer) => self.postMessage({ number: data.number, ...answer }, answer.canonical ? [answer.canonical.buffer] : []),
    (error) => self.postMessage({ number: data.number, fault: String(error.message || error) }));
};
