"""The module for browsers in Chromium: what it answers to records, in a page that may run WebAssembly and nothing that
is inline."""
import base64
from pathlib import Path

from browser import Browser
from sites import served

TESTS = Path(__file__).resolve().parents[2] / "browser" / "module" / "tests"
BEGUN = """(async () => {
  const {describe, load} = await import("./naplps.mjs"), {answersOf} = await import("./records.mjs");
  const told = describe((await load()).check(Uint8Array.of(7)));
  if (told !== "accepted 1 entries") throw new Error(`naplps.mjs answers ${told}`);
  const read = async (name) => (await fetch(name)).arrayBuffer();
  const code = await read("naplps.wasm"), records = await read("records");
  window.answers = answersOf(await WebAssembly.compile(code), new Uint8Array(records));
})()"""
# Some megabytes of the answers that come next, in base64; nothing where all have come.
NEXT = """(async () => {
  const held = [];
  for (let size = 0; size < 1 << 24;) {
    const {value, done} = answers.next();
    if (done) break;
    held.push(value);
    size += value.length;
  }
  const reader = new FileReader();
  await new Promise((done) => { reader.onload = done; reader.readAsDataURL(new Blob(held)); });
  return held.length ? reader.result.split(",")[1] : "";
})()"""


def answers_in_chromium(module: Path, records: Path, folder: Path) -> bytes:
    """What the module answers to records in Chromium."""
    (folder / "full.html").write_text('<!doctype html><meta charset="utf-8"><title>Records</title>', "utf-8")
    files = {"naplps.wasm": module, "records": records, "records.mjs": TESTS / "records.mjs",
             "naplps.mjs": TESTS.parent / "naplps.mjs"}
    for name, path in files.items():
        (folder / name).symlink_to(path)
    browser = Browser()
    try:
        with served(folder) as address:
            browser.open(address + "full.html", ready="true")
            browser.run(BEGUN)
            return b"".join(map(base64.b64decode, iter(lambda: str(browser.run(NEXT)), "")))
    finally:
        browser.close()
