"""What the tests of sketches share: parts of lines, what an SVG picture may hold, and pages that draw very much."""
import re
import xml.etree.ElementTree as ET
from typing import List, Optional, Set, Tuple

from stream_writer import StreamWriter

# The names of elements of SVG have this before them.
SVG = "{http://www.w3.org/2000/svg}"
# The elements that a picture may have.
MAY_STAND = {"svg", "title", "desc", "defs", "g", "pattern", "rect", "path", "polygon", "text", "use", "mask"}
# The attributes of shapes, and of text.
INK = "pel=0,0 colour=own-start texture=0/none"
HAND = "colour=own-start text=0,0/normal/----"


def parsed(svg: str) -> ET.Element:
    """The root of a picture."""
    return ET.fromstring(svg)


def elements(svg: str, name: str) -> List[ET.Element]:
    """All elements of this name."""
    return list(parsed(svg).iter(SVG + name))


def harmless(svg: str) -> None:
    """Well-formed, of known elements alone, with references only within itself, and with numbers that are numbers."""
    ids: Set[str] = set()
    for element in parsed(svg).iter():
        assert element.tag.startswith(SVG) and element.tag[len(SVG):] in MAY_STAND
        for name, value in element.attrib.items():
            assert not name.lower().startswith("on") and "nan" not in value.lower() and "inf" not in value.lower()
            if name.endswith("href"):
                assert value.startswith("#") and value[1:] in ids
            if "url(" in value:
                assert re.fullmatch(r"url\(#[\w-]+\)", value) and value[5:-1] in ids
        if "id" in element.attrib:
            assert element.attrib["id"] not in ids
            ids.add(element.attrib["id"])


def numbers(path: str) -> List[float]:
    """The numbers of a path."""
    return [float(number) for number in re.findall(r"-?[\d.]+", path)]


def tiles(svg: str) -> List[Tuple[List[Optional[str]], Optional[ET.Element]]]:
    """The names, the answers and the pictures of a sheet."""
    harmless(svg)
    groups = [element for element in parsed(svg) if element.tag == SVG + "g"]
    return [([text.text for text in group if text.tag == SVG + "text"], group.find(SVG + "svg")) for group in groups]


def zigzag(points: int) -> StreamWriter:
    """A filled polygon of a number of points side by side, as a page has it."""
    return StreamWriter(3).code(0x37, b"RZc" + bytes(0x40 | value for index in range(points) for value in (
        (0, 0, 0o17) if index % 2 else (0o77, 0o77, 0o71))))


def bomb(kind: str, uses: int) -> bytes:
    """A page of some 10 KB: a mask or a glyph of 95 polygons with 2,001 points each, in many colours or places."""
    page = StreamWriter(3).escape(0x2A, 0x7A).macro(0x41, zigzag(2000)).domain()
    page.escape(0x44 if kind == "mask" else 0x43, 0x41).raw(*[0x19, 0x41] * 95).escape(0x45)
    if kind == "mask":
        page.code(0x23, b"\x60")
        for index in range(uses):
            page.rgb(index / uses, 0.5, 0.5).code(0x33, page.place(0.1, 0.1) + page.place(0.001, 0.001))
        return page.made()
    page.escape(0x2B, 0x7B).to(0.1, 0.5)
    return page.raw(*[0x1D, 0x41] * uses).made()
