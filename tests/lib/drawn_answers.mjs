// What players show of what they hold, by python/naplps_pages/player/drawn.js: each comes as a line of JSON, and is
// answered by one, without the steps of its drawing. (The scripts are those of a document, and no modules.)
import { readFileSync } from "node:fs";

const own = (name) => readFileSync(new URL(`../../python/naplps_pages/player/${name}`, import.meta.url), "utf8");
const scripts = ["elements.js", "drawing.js", "drawn.js"].map(own).join("");
const drawnOf = new Function(`${scripts}\nreturn drawnOf;`)();
for (const line of readFileSync(0, "ascii").split("\n").slice(0, -1)) {
  const { steps, named, ...shown } = drawnOf(JSON.parse(line));
  process.stdout.write(`${JSON.stringify(shown)}\n`);
}
