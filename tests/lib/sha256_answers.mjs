// node sha256_answers.mjs < LENGTHS: the SHA-256 of so many bytes, by browser/page/sha256.js. The bytes count up.

import { readFileSync } from "node:fs";
import { sha256 } from "../../browser/page/sha256.js";

const sums = JSON.parse(readFileSync(0, "utf-8")).map((length) => sha256(Uint8Array.from({ length }, (_, at) => at)));
process.stdout.write(JSON.stringify(sums));
