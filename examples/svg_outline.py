#!/usr/bin/python3
"""Makes a page of an SVG file: svg_outline.py PICTURE.svg > PAGE.nap

It draws polygons, polylines, lines and rectangles in the colours of their fills and strokes. Paths, transforms and
styles aren't read. The file's viewBox fills the screen, as far as its shape allows.
"""
import re
import sys
import xml.etree.ElementTree as ET
from typing import List, Optional, Tuple

from naplps.writer import PageWriter, Place

HIGH = 0.78
COLOURS = {"black": "#000000", "white": "#ffffff", "red": "#ff0000", "lime": "#00ff00", "blue": "#0000ff"}
NUMBER = re.compile(r"[-+]?[0-9]*\.?[0-9]+(?:[eE][-+]?[0-9]+)?")


def colour(text: Optional[str]) -> Optional[Tuple[float, ...]]:
    """Red, green and blue from 0 to 1; None where nothing is painted."""
    known = COLOURS.get(text or "none", text or "none")
    return tuple(each / 255 for each in bytes.fromhex(known[1:])) if re.fullmatch("#[0-9a-fA-F]{6}", known) else None


def corners(it: ET.Element) -> List[Place]:
    """The corners of a shape, in the units of the file."""
    kind = it.tag.rpartition("}")[2]
    if kind in ("polygon", "polyline"):
        numbers = [float(each) for each in NUMBER.findall(it.get("points", ""))]
        return list(zip(numbers[::2], numbers[1::2]))
    if kind not in ("line", "rect"):
        return []
    names = ("x1", "y1", "x2", "y2") if kind == "line" else ("x", "y", "width", "height")
    x, y, third, fourth = (float(it.get(name, "0")) for name in names)
    return [(x, y), (third, fourth)] if kind == "line" else [
        (x, y), (x + third, y), (x + third, y + fourth), (x, y + fourth)]


def page_of(svg: str) -> PageWriter:
    """The page of an SVG file that was read."""
    root = ET.fromstring(svg)
    left, top, wide, high = map(float, NUMBER.findall(root.get("viewBox", "0 0 100 78")))
    scale = min(1 / wide, HIGH / high)
    page = PageWriter().clear()
    for it in root.iter():
        places = [((x - left) * scale, HIGH - (y - top) * scale) for x, y in corners(it)]
        is_area = not it.tag.endswith("line")
        for is_fill, paint in ((True, it.get("fill", "black")), (False, it.get("stroke"))):
            parts = colour(paint)
            if parts is None or len(places) < 2 or (is_fill and not is_area):
                continue
            thick = 0.0 if is_fill else float(it.get("stroke-width", "1")) * scale
            # (a pel hangs on its lower left corner)
            hung = [(max(x - thick / 2, 0), max(y - thick / 2, 0)) for x, y in places]
            page.rgb(parts[0], parts[1], parts[2]).pel(thick, thick)
            page.polygon(hung, is_fill) if is_area else page.line(*hung)
    return page


if __name__ == "__main__":
    with open(sys.argv[1], encoding="utf-8") as file:
        sys.stdout.buffer.write(page_of(file.read()).made())
