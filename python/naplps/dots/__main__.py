"""Prints the raster of the lines of a list on standard input: `python3 -m naplps.dots < LINES`.

It prints 200 lines of 256 inks, the lowest row first, and then a line for each address that a dot has, with its colour.
"""
import sys

from ..entry import read_line
from ..faults import NotALine
from . import raster
from .surface import ACROSS, DIRECT, MARK


def main() -> None:
    """Prints it."""
    try:
        it = raster(read_line(line.rstrip("\n")) for line in sys.stdin)
    except (NotALine, UnicodeDecodeError) as error:
        sys.exit(f"no line of a list: {error}")
    rows = [it.inks[at:at + ACROSS] for at in range(0, len(it.inks), ACROSS)]
    lines = [" ".join(map(str, row)) for row in rows]
    colours = {ink & ~MARK: colour for ink, colour in it.colours().items() if not ink & DIRECT}
    print("\n".join(lines + [f"{address} {colour}" for address, colour in sorted(colours.items())]))


main()
