// node worker_answers.mjs MODULE < QUESTIONS: what browser/page/worker.js answers, and how much memory its module had.
// The questions are JSON, each with `bytes` or with those of a `file` in base64.

import { readFileSync } from "node:fs";
import { mostMemory } from "./memories.mjs";

const bytesOf = (text) => Uint8Array.from(Buffer.from(text, "base64"));
const decoded = ({ bytes, file, ...others }) => ({
  ...others, ...(bytes ? { bytes: bytesOf(bytes) } : {}), ...(file ? { file: new Blob([bytesOf(file)]) } : {}) });

const ask = (data) => new Promise((done) => {
  self.postMessage = done;
  self.onmessage({ data });
});

globalThis.self = {};
await import("../../browser/page/worker.js");
await ask({ number: 0, module: readFileSync(process.argv[2]) });
const answers = [];
for (const [at, question] of JSON.parse(readFileSync(0, "utf-8")).entries()) {
  const { canonical, ...answer } = await ask({ number: at + 1, ...decoded(question) });
  answers.push({ ...answer, canonical: canonical ? canonical.length : null });
}
process.stdout.write(JSON.stringify({ memory: mostMemory(), answers }));
