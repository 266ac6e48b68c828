// The picture of many canonical streams by browser/picture.js: each comes as its length, four bytes, and its bytes. The
// answer is a line of JSON: the markup.
import { readFileSync } from "node:fs";
import { read } from "../../browser/canonical.mjs";
import { drawing } from "../../browser/drawing.js";
import { markup, picture } from "../../browser/picture.js";

const all = readFileSync(0);
for (let at = 0; at < all.length;) {
  const end = at + 4 + all.readUInt32BE(at);
  const it = picture(drawing([...read(all.subarray(at + 4, end))]), "A <page> & \"more\"");
  process.stdout.write(`${JSON.stringify(markup(it))}\n`);
  at = end;
}
