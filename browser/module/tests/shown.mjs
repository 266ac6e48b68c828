// node shown.mjs MODULE COUNT SEED < RECORDS: changed pages and lists, with hostile names, through the worker of the page
// naplps.html and what the page saves. It prints how many there were, the longest time of one, and each fault: an
// exception, or an element or an attribute that no drawing has. The status is 1 where there was one.
import {readFileSync} from "node:fs";
import {csvOf, zipOf} from "../../page/saving.js";

const [, , file, count, seed] = process.argv, data = readFileSync(0);
let take;
globalThis.self = {postMessage: (message) => take(message)};
await import("../../page/worker.js");
const ask = async (question) => {
  const answer = await new Promise((resolve) => {
    take = resolve;
    self.onmessage({data: question});
  });
  if (answer.fault) throw new Error(`${question.ask}: ${answer.fault}`);
  return answer;
};
await ask({number: 0, module: readFileSync(file)});

const records = [], lists = [];
for (let at = 0; at < data.length;) {
  const length = data.readUInt32LE(at + 8), kept = data.readUInt32LE(at) === 1 ? lists : records;
  if (length > 0 && length <= 600) kept.push(data.subarray(at + 12, at + 12 + length));
  at += 12 + length;
}

let state = Number(seed) >>> 0 || 1;
/** A number below another, by xorshift. */
function chance(below) {
  state ^= state << 13;
  state ^= state >>> 17;
  state ^= state << 5;
  return (state >>> 0) % below;
}

/** One of these, with bytes that are others, taken out or put in. */
function changed(kept) {
  const bytes = Array.from(kept[chance(kept.length)]);
  for (let n = chance(4); n > 0; n--) {
    const at = chance(bytes.length + 1), other = kept[chance(kept.length)], from = chance(other.length);
    if (chance(3) === 0 && at < bytes.length) bytes[at] = chance(256);
    else bytes.splice(at, chance(5), ...other.subarray(from, from + chance(20)));
  }
  return Uint8Array.from(bytes);
}

const PIECES = ["<script>alert(1)</script>", "</title>", "<img src=x onerror=alert(1)>", "&lt;", "\"", "'", "]]>", "../",
  "/", "\\", "=1+1", "@", "\0", "\r\n", "\u202e", "\ud800", "\udc00", "\u00e9", "page.nap", "<!--", "{{", " "];
const name = () => Array.from({length: chance(6)}, () => PIECES[chance(PIECES.length)]).join("");

const ELEMENTS = new Set(["svg", "title", "defs", "clipPath", "pattern", "symbol", "g", "path", "rect", "text", "tspan",
  "use", "circle", "ellipse", "line", "polyline", "polygon"]);
const TAG = /<\/?([A-Za-z]\w*)((?: [\w:-]+="[^"<>]*")*) ?\/?>/g;
/** What a picture has that no drawing has: markup that isn't its own, or an attribute that acts. */
function strange(svg) {
  for (const [, tag, attributes] of svg.matchAll(TAG)) {
    if (!ELEMENTS.has(tag)) return `the element ${tag}`;
    if (/ (?:on\w*|style)=| href="(?!#)|url\((?!#)|javascript:/i.test(attributes)) return `the attributes${attributes}`;
  }
  const text = svg.replace(TAG, "").match(/[<>]/);
  return text ? `the text ${svg.slice(0, 300)}` : "";
}

/** What is wrong with the files that are saved of names. */
function wrongSaved(names) {
  const rows = csvOf(names.map((each) => [each, 1])).split(/\r\n(?=(?:[^"]*"[^"]*")*[^"]*$)/);
  if (rows.length !== names.length + 1 || rows.some((row) => /^"?[=+\-@\t]/.test(row))) return "a table";
  const parts = zipOf(names.map((each) => [each, new Uint8Array(3)])), kept = parts.length - 1 - 2 * names.length;
  const inZip = Array.from({length: kept / 3}, (_, at) => new TextDecoder().decode(parts[3 * at + 1]));
  const isBad = (each) => !each || /^\/|\\|[\0-\x1f]/.test(each) || each.split("/").includes("..");
  return new Set(inZip).size !== names.length || inZip.some(isBad) ? "a zip" : "";
}

let longest = 0, pictures = 0, made = 0, faults = 0;
for (let n = 0; n < Number(count); n++) {
  const bytes = changed(n % 2 ? records : lists), words = name(), began = performance.now();
  try {
    await ask({number: 1, ask: "check", bytes});
    const {svg} = await ask({number: 2, ask: "svg", bytes, words});
    const draft = n % 2 ? {} : await ask({number: 3, ask: "make", bytes});
    pictures += Boolean(svg);
    made += Boolean(draft.canonical);
    const wrong = strange(svg || "") || strange(draft.svg || "") || (n % 64 ? "" : wrongSaved([words, name(), words]));
    if (wrong) throw new Error(`${JSON.stringify(words)}: ${wrong}`);
  } catch (error) {
    if (faults++ < 5) console.log(`${Buffer.from(bytes).toString("hex")}: ${error.stack}`);
  }
  longest = Math.max(longest, performance.now() - began);
}
console.log(JSON.stringify({pages: Number(count), pictures, made, longest: Math.round(longest), faults}));
process.exitCode = faults ? 1 : 0;
