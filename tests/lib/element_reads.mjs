// node element_reads.mjs MODULE < RESPONSES: what <naplps-page> takes of responses, each alone. A response has a
// status, headers, and a count of pieces of a length; or it is a page that the module reads. The answer is how many
// bytes were taken, whether the rest was cancelled, the message, and how much memory the module has.

import { readFileSync } from "node:fs";
import { mostMemory } from "./memories.mjs";

class FakeElement {
  attributes = new Map();
  attachShadow() {
    this.shadowRoot = { replaceChildren() {} };
    return this.shadowRoot;
  }
  getAttribute(name) { return this.attributes.get(name) ?? null; }
  dispatchEvent(event) { this.message = event.message ?? ""; }
}

let NaplpsPage;
Object.assign(globalThis, {
  HTMLElement: FakeElement, CSSStyleSheet: class { replaceSync() {} },
  customElements: { define(_, kind) { NaplpsPage = kind; } },
  document: { currentScript: null, baseURI: "http://pages.test/", createElement: () => ({}) },
  ErrorEvent: class extends Event { constructor(type, { message }) { super(type); this.message = message; } },
});
await import("../../browser/element.js");

// A response that comes by pieces, and what of it is taken.
function response({ status, headers, piece, count }) {
  const state = { taken: 0, isCancelled: false };
  const stream = new ReadableStream({
    pull(controller) {
      if (state.taken >= piece * count) return controller.close();
      state.taken += piece;
      return controller.enqueue(new Uint8Array(piece));
    },
    cancel() { state.isCancelled = true; },
  }, { highWaterMark: 0 });
  return { state, made: new Response(stream, { status, headers }) };
}

async function shown(attributes) {
  const element = new NaplpsPage();
  element.attributes = new Map(Object.entries(attributes));
  await element.show();
  return element.message;
}

async function answer({ page, ...about }) {
  if (page) {
    globalThis.fetch = async ({ pathname }) => new Response(
      pathname === "/naplps.wasm" ? readFileSync(process.argv[2]) : Buffer.from(page, "base64"));
    return { message: await shown({ src: "page.nap", reader: "full" }), memory: mostMemory() };
  }
  const { state, made } = response(about);
  globalThis.fetch = async () => made;
  const message = await shown({ src: "page.nap" });
  return { ...state, message };
}

const answers = [];
for (const each of JSON.parse(readFileSync(0, "utf-8"))) answers.push(await answer(each));
process.stdout.write(JSON.stringify(answers));
