// node zip_steps.mjs < NAMES: the names of a zip of empty files of these names, and how often it asked whether one is
// taken. Above a million times it ends with the status 1.

import { readFileSync } from "node:fs";
import { zipOf } from "../../browser/page/saving.js";

const MOST = 1_000_000;
let steps = 0;
for (const kind of [Set, Map]) {
  const { has, get } = kind.prototype;
  const counted = (method) => function count(key) {
    if (++steps > MOST) process.exit(1);
    return method.call(this, key);
  };
  kind.prototype.has = counted(has);
  if (get) kind.prototype.get = counted(get);
}
const parts = zipOf(JSON.parse(readFileSync(0, "utf-8")).map((name) => [name, new Uint8Array()]));
const zip = Buffer.concat(parts).toString("base64");
process.stdout.write(JSON.stringify({ steps, zip }));
