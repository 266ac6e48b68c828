"""Times the first screen of the wall of a served report in Chromium: until all of its pictures stand.

The window has 1240 by 900 points.
"""
import importlib
import subprocess
import sys

from dev.layout import TOP
from dev.words import parser_of

# Notes when each picture of the first screen stands.
WATCH = """(function look() {
  const seen = [...document.querySelectorAll('#wall > li')].filter((each) => {
    const box = each.getBoundingClientRect(); return box.bottom > 0 && box.top < innerHeight; });
  const stands = (image) => image && image.complete && image.naturalWidth;
  if (seen.length && seen.every((each) => stands(each.querySelector('img')))) window.drawn = performance.now();
  else requestAnimationFrame(look);
})();"""


def main() -> int:
    """Prints the least of the times."""
    parser = parser_of(__doc__)
    parser.add_argument("store", metavar="STORE", help="a file that naplps-pages scan made")
    parser.add_argument("--times", type=int, default=3, metavar="N", help="how many runs (3)")
    given = parser.parse_args()
    sys.path.insert(0, str(TOP / "tests" / "lib"))
    server = subprocess.Popen([TOP / "pages" / "naplps-pages", "report", given.store, "--serve"],
                              stdout=subprocess.PIPE, text=True)
    browser = importlib.import_module("browser").Browser()
    times = []
    try:
        assert server.stdout
        address = server.stdout.readline().strip()
        browser.call("Page.addScriptToEvaluateOnNewDocument", source=WATCH)
        for _ in range(given.times):
            browser.open(address)
            browser.until("window.drawn")
            times.append(browser.run("drawn"))
    finally:
        browser.close()
        server.terminate()
        server.wait()
    print(f"all pictures of the first screen stand: {min(times) / 1000:.2f} s")
    return 0


if __name__ == "__main__":
    sys.exit(main())
