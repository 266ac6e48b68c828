"""Times the page naplps.html with a box of files in Chromium.

The files are pages of the gallery and made by chance, copies, refused ones, and files of other kinds. They are chosen
in the page of dist/browser, which is opened from the disk. The longest time in which the page answered nothing is that
between two timers of 10 ms: of all, and once the first card is there, since Chromium itself takes time for that many
files that are chosen.
"""
import importlib
import os
import sys
import tempfile
import time
from pathlib import Path
from typing import Any, List

from dev.layout import TOP
from dev.words import parser_of

PAGE = TOP / "dist" / "browser" / "naplps.html"
READ, COUNTED = "Number(document.body.dataset.read || 0)", "document.getElementById('counted').textContent"
WATCH = """(() => { let last = performance.now(); Object.assign(window, {longest: 0, begun: 0, many: 0});
  setInterval(() => { const now = performance.now(), gap = now - last;
    longest = Math.max(longest, gap);
    if (document.querySelector('.card')) { begun = Math.max(begun, gap); many += gap > 110; }
    last = now; }, 10); })()"""
LONGEST = "`${Math.round(longest)} ms; after the first card ${Math.round(begun)} ms, ${many} times more than 100`"


def measure(browser: Any, paths: List[str]) -> None:
    """Chooses the files, and prints what that took."""
    found = browser.call("Runtime.evaluate", expression="document.getElementById('files')")["result"]["objectId"]
    browser.run(WATCH)
    start = time.perf_counter()
    browser.call("DOM.setFileInputFiles", files=paths, objectId=found)
    while browser.run(READ) < len(paths):
        time.sleep(0.2)
    print(f"all answered: {time.perf_counter() - start:.1f} s ({browser.run(COUNTED)})")
    print(f"longest without an answer: {browser.run(LONGEST)}")


def main() -> int:
    """Measures."""
    parser = parser_of(__doc__)
    parser.add_argument("--files", type=int, default=2000, metavar="N", help="how many files (2000)")
    count = parser.parse_args().files
    sys.path.append(str(TOP / "tests" / "lib"))
    box, new_browser = (getattr(importlib.import_module(name), member)
                        for name, member in (("boxes", "box"), ("browser", "Browser")))
    browser = new_browser()
    with tempfile.TemporaryDirectory() as room:
        for name, data in box(count, 1).items():
            Path(room, name).write_bytes(data)
        try:
            print(f"processors {os.cpu_count()}, load {os.getloadavg()[0]:.0f}")
            browser.open(PAGE.as_uri())
            measure(browser, sorted(str(path) for path in Path(room).iterdir()))
            print(f"load {os.getloadavg()[0]:.0f}; errors: {browser.errors}")
        finally:
            browser.close()
    return 0


if __name__ == "__main__":
    sys.exit(main())
