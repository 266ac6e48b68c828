// What browser/canonical.mjs says of many streams: each comes as its length, four bytes, and its bytes. The answer is a
// line: the number of entries with the SHA-256 of their lines and of their JSON, or the refusal.
import { createHash } from "node:crypto";
import { readFileSync } from "node:fs";
import { lineOf, read } from "../../browser/canonical.mjs";

function answer(stream) {
  const lines = createHash("sha256"), json = createHash("sha256");
  let count = 0;
  for (const entry of read(stream)) {
    lines.update(`${lineOf(entry)}\n`);
    json.update(`${JSON.stringify(entry)}\n`);
    count++;
  }
  return `accepted ${count} ${lines.digest("hex")} ${json.digest("hex")}`;
}

const all = readFileSync(0);
const answers = [];
for (let at = 0; at < all.length;) {
  const end = at + 4 + all.readUInt32BE(at);
  try {
    answers.push(answer(all.subarray(at + 4, end)));
  } catch (error) {
    answers.push(error.name === "NotCanonical" ? error.message : `raised ${error.stack}`.replaceAll("\n", " "));
  }
  at = end;
}
process.stdout.write(`${answers.join("\n")}\n`);
