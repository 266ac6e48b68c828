// Prints what files look like to browser/page/looks.js: node looks_answers.mjs < KINDS and FILES, as JSON.

import { looksBy } from "../../browser/page/looks.js";

let text = "";
for await (const piece of process.stdin.setEncoding("utf8")) text += piece;
const { kinds, files } = JSON.parse(text), lookOf = looksBy(kinds);
process.stdout.write(JSON.stringify(files.map((each) => lookOf(Uint8Array.from(Buffer.from(each, "base64"))))));
