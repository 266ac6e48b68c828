// The entry of each line of the input, by browser/lines.mjs, as a line of JSON: null where it is no line of a list.
import { readFileSync } from "node:fs";
import { NotALine, entriesOf } from "../../browser/lines.mjs";

function entryOf(line) {
  try {
    return entriesOf([line])[0];
  } catch (error) {
    if (error instanceof NotALine) return null;
    throw error;
  }
}

for (const line of readFileSync(0, "utf8").split("\n").slice(0, -1)) {
  process.stdout.write(`${JSON.stringify(entryOf(line))}\n`);
}
