"""Draws the pages that cost a browser most, and measures their pictures.

Prints the table of docs/measurements/README.md: how many entries are drawn, how large the picture is, how much memory
and time it takes to make it, and how long Chromium takes from its start until it has the picture as PNG. It judges that
a picture has 16 MiB at most, that making it takes less than 300 MiB, and that Chromium takes less than 5 seconds, and
prints a line for each that doesn't. The entries are made here, without the program.
"""
import os
import random
import shutil
import subprocess
import sys
import tempfile
import time
from typing import Callable, Dict, List, Tuple

from dev.measuring.tables import head, row
from dev.words import parser_of
from naplps import drawing

MOST_BYTES, MOST_MEMORY, MOST_SECONDS = 16 << 20, 300 << 20, 5.0
ONE = (1 << 23) - 1
HIGH = int(ONE * 0.78)
SCREEN = "0,0 %d,%d" % (ONE, HIGH)
MANY, SOME = 19_000, 99
BROWSER = ["chromium", "--headless", "--no-sandbox", "--disable-gpu", "--hide-scrollbars", "--no-first-run",
           "--host-resolver-rules=MAP * ~NOTFOUND", "--window-size=1024,1080"]


def places(number: int, most: int = HIGH) -> str:
    """A number of places, by chance."""
    return " ".join("%d,%d" % (random.randrange(ONE), random.randrange(most)) for _ in range(number))


def ink(texture: str = "0/none", pel: str = "0,0") -> str:
    """The attributes of a shape, in a colour by chance."""
    return "pel=%s %s texture=%s" % (pel, colour(), texture)


def colour() -> str:
    """A colour by chance."""
    return "colour=direct:%d,%d,%d" % (random.randrange(65536), random.randrange(65536), random.randrange(65536))


def hand(pen: str, size: str = "normal", words: str = "0,0", flags: str = "----") -> str:
    """The attributes of a character."""
    return "pen=%s %s text=%s/%s/%s" % (pen, colour(), words, size, flags)


def near() -> str:
    """A filled polygon of 2,001 points, which all are in one place."""
    return "POLY-FILLED %s %s" % (" ".join(["4000000,4000000", "4000001,3999999"] * 1000), ink())


def shapes(kind: str, points: int, texture: str = "0/none", number: int = MANY, pel: str = "0,0") -> List[str]:
    """Shapes of a number of points by chance."""
    return ["%s %s %s" % (kind, places(points), ink(texture, pel)) for _ in range(number)]


def glyph(inside: List[str], size: str = "") -> List[str]:
    """A glyph that is drawn again and again, each time in another size if that isn't given."""
    return ["GLYPH 21", *inside, "END", *["CHAR drcs 21 " + hand("0,0" if not size else places(1), size or "%d,%d" % (
        ONE - at, HIGH)) for at in range(MANY)]]


def masked(inside: List[str], size: Callable[[int], str]) -> List[str]:
    """A mask that fills the screen again and again."""
    return ["MASK A", *inside, "END", *["RECT-FILLED %s %s" % (SCREEN, ink("32/" + size(at))) for at in range(MANY)]]


def letter() -> str:
    """A letter by chance."""
    return "CHAR primary %02x " % random.randrange(0x21, 0x7F)


def repeated(first: str, size: str) -> List[str]:
    """Characters that are repeated to the end of the line."""
    return [line for _ in range(MANY // 2) for line in (
        first + hand("0,%d" % random.randrange(ONE), size), "TO-EOL " + hand("after", size))]


KINDS: Dict[str, Callable[[], List[str]]] = {
    "nothing": lambda: ["BELL"],
    "a glyph of many points": lambda: glyph([near()] * 10, "normal"),
    "the same, of most points": lambda: glyph([near()] * 95, "normal"),
    "a glyph of nothing": lambda: glyph([], "normal"),
    "a large glyph of areas": lambda: glyph(["RECT-FILLED 0,0 %d,%d %s" % (ONE, ONE, ink())] * 10),
    "a large glyph of polygons": lambda: glyph(shapes("POLY-FILLED", 10, number=10)),
    "a large glyph of dashes": lambda: glyph(shapes("LINE", 2, "1/none", 20)),
    "a glyph of letters": lambda: glyph(["CHAR primary 41 " + hand(places(1), "small") for _ in range(50)], "normal"),
    "a mask of many points": lambda: masked([near()] * 10, lambda at: places(1)),
    "a large mask of polygons": lambda: masked(shapes("POLY-FILLED", 10, number=30), lambda at: "%d,%d" % (
        ONE - at, ONE)),
    "small masks": lambda: masked(shapes("LINE", 2, number=1), lambda at: places(1, 200_000)),
    "areas with a pattern": lambda: ["RECT-FILLED %s %s" % (SCREEN, ink("24/none")) for _ in range(MANY)],
    "areas in half tone": lambda: masked([], lambda at: places(1))[2:],
    "large areas": lambda: ["RECT-FILLED %s %s" % (SCREEN, ink()) for _ in range(MANY)],
    "small areas with a pattern": lambda: shapes("RECT-FILLED", 2, "24/1,1"),
    "points": lambda: ["POINT %s pel=0,0 %s" % (places(1), colour()) for _ in range(MANY)],
    "polygons of 2,000 points": lambda: shapes("POLY-FILLED", 2000, number=SOME),
    "polygons of 10 points": lambda: shapes("POLY-FILLED", 10),
    "triangles": lambda: shapes("POLY-FILLED", 3),
    "polygons with an edge": lambda: shapes("POLY-FILLED", 10, "4/none"),
    "polygons in one place": lambda: [near() for _ in range(SOME)],
    "the same, outlined": lambda: [near().replace("FILLED", "OUTLINED") for _ in range(SOME)],
    "lines": lambda: shapes("LINE", 2),
    "thick lines": lambda: shapes("LINE", 2, pel=places(1)),
    "lines of a dot": lambda: shapes("LINE", 2, pel="1,1"),
    "thick polygons": lambda: shapes("POLY-OUTLINED", 20, pel=places(1, 300_000)),
    "thick circles": lambda: shapes("ARC-OUTLINED", 3, pel=places(1, 300_000)),
    "thick curves": lambda: shapes("ARC-OUTLINED", 100, pel="60000,90000"),
    "dashes of a dot": lambda: shapes("LINE", 2, "1/none", pel="1,1"),
    "dashed curves of a dot": lambda: shapes("ARC-OUTLINED", 100, "1/none", pel="1,1"),
    "dashed lines": lambda: shapes("LINE", 2, "1/none"),
    "dashed polygons": lambda: shapes("POLY-OUTLINED", 20, "1/none"),
    "circles": lambda: ["ARC-FILLED 100,%d %d,%d 100,%d %s" % (HIGH // 2, HIGH - at, HIGH // 2, HIGH // 2, ink())
                        for at in range(MANY)],
    "arcs": lambda: shapes("ARC-FILLED", 3),
    "dashed arcs": lambda: shapes("ARC-OUTLINED", 3, "2/none"),
    "curves": lambda: shapes("ARC-FILLED", 100),
    "letters apart": lambda: [letter() + hand(places(1)) for _ in range(MANY)],
    "letters in rows": lambda: [letter() + "pen=after colour=own-start text=0,0/20000,20000/----" for _ in range(MANY)],
    "large letters": lambda: [letter() + hand("0,0", "%d,%d" % (ONE - at, HIGH)) for at in range(MANY)],
    "turned letters, underlined": lambda: [letter() + hand(places(1), "small", "1,0", "ru--") for _ in range(MANY)],
    "letters to the end of lines": lambda: repeated(letter(), "10000,400000"),
    "mosaics to the end of lines": lambda: repeated("CHAR mosaic 7f ", "10000,4000000"),
    "large mosaics": lambda: ["CHAR mosaic 7f " + hand("0,0", "%d,%d" % (ONE - at, ONE)) for at in range(MANY)]}


def draw(lines: List[str], path: str) -> Tuple[float, float, float]:
    """Draws in a process of its own: the entries drawn, the bytes of memory, the seconds."""
    reads, writes = os.pipe()
    child = os.fork()
    if not child:
        began = time.monotonic()
        made = drawing.draw(lines)
        with open(path, "w", encoding="utf-8") as file:
            file.write(made.svg)
        os.write(writes, b"%d %f" % (made.drawn, time.monotonic() - began))
        os._exit(0)
    os.close(writes)
    with open(reads, "rb") as pipe:
        drawn, seconds = map(float, pipe.read().split())
    used = os.wait4(child, 0)[2]
    return drawn, used.ru_maxrss * 1024.0, seconds


def show(path: str, folder: str) -> float:
    """How long Chromium takes for a picture, in seconds."""
    began = time.monotonic()
    words = ["--user-data-dir=" + os.path.join(folder, "profile"), "--screenshot=" + path + ".png", "file://" + path]
    subprocess.run([*BROWSER, *words], check=True, capture_output=True, timeout=300)
    return time.monotonic() - began


def is_within_bounds(name: str, folder: str) -> bool:
    """Measures a kind of page, and prints its row; whether it costs no more than a page may."""
    random.seed(1)
    lines = KINDS[name]()
    path = os.path.join(folder, "picture.svg")
    drawn, memory, seconds = draw(lines, path)
    size, shown = os.path.getsize(path), show(path, folder)
    row(name, f"{drawn:,.0f}", f"{len(lines):,}", f"{size:,}", f"{memory / 1e6:.0f} MB", f"{seconds:.2f} s",
        f"{shown:.1f} s")
    return size <= MOST_BYTES and memory <= MOST_MEMORY and shown <= MOST_SECONDS


def main() -> int:
    """Measures, prints and judges; the status."""
    parser = parser_of(__doc__)
    parser.add_argument("names", nargs="*", metavar="NAME", help="a page of the table; all if there is none")
    names = parser.parse_args().names
    for name in names:
        if name not in KINDS:
            parser.error(f"there is no page {name}")
    if shutil.which(BROWSER[0]) is None:
        print("not tried: there is no chromium (Debian: apt-get install chromium)")
        return 77
    wrong = []
    head("Page", "Entries drawn", "of", "Bytes", "Memory", "Time", "Chromium")
    for name in names or KINDS:
        with tempfile.TemporaryDirectory(prefix="naplps-") as folder:
            if not is_within_bounds(name, folder):
                wrong.append(name)
    for name in wrong:
        print(f"too much: {name}")
    return 1 if wrong else 0


if __name__ == "__main__":
    sys.exit(main())
