"""How lines and areas look: thickness, dashes, fills."""
from functools import lru_cache
from typing import Dict, List, NamedTuple, Optional, Tuple, Union

from ..entry import Arc, Line, Point, Poly, Rect, Texture
from .colours import BLACK, Palette
from .measure import THIN, THIN_IN_GLYPH, WIDTH, fine, length, num
from .paper import Definition, Element, Paper
from .weight import PATTERNED, TILE, Extent, Weight, filled, outlined

Area = Union[Arc, Poly, Rect]
Stroked = Union[Arc, Line, Poly, Rect]
# Dashes by the lowest two bits of the texture word, in thicknesses.
DASHES = {1: (1, 2), 2: (5, 3), 3: (5, 2, 1, 2)}
USUAL_MASK = 24.0


class Style(NamedTuple):
    """The attributes of a shape, and what it costs to draw it."""

    attributes: Dict[str, str]
    weight: Weight


class SvgAttributes:
    """The attributes of SVG for an entry's pel, colour and texture."""

    def __init__(self, paper: Paper, palette: Palette) -> None:
        self.paper, self.palette = paper, palette

    def ink(self, entry: Union[Point, Stroked]) -> str:
        """The colour of an entry; in a glyph or a mask that of the character or shape that uses it."""
        return self.palette.front(entry.colour) if self.paper.open is None else "currentColor"

    def thin(self) -> float:
        """The least thickness that is drawn."""
        return THIN if self.paper.open is None else THIN_IN_GLYPH

    def of(self, entry: Stroked, shape: Extent) -> Style:
        """Those of a shape of this extent. Raises Full."""
        if not isinstance(entry, Line) and entry.filled:
            return self._fill(entry, shape)
        return self._stroke(entry, shape)

    def _stroke(self, entry: Stroked, shape: Extent) -> Style:
        """Those of a line or an outline that has no pel."""
        thick, dashes = self.thin(), dashes_of(entry)
        attributes = {"fill": "none", "stroke": self.ink(entry), **_thick(thick, dashes)}
        return Style(attributes, outlined(shape, thick, dashes))

    def _fill(self, entry: Area, shape: Extent) -> Style:
        """Those of a filled area."""
        texture = entry.texture
        edge: Dict[str, str] = {}
        weight = filled(shape)
        if texture.word & 4:
            thick = self.thin() * 0.75
            edge = {"stroke": BLACK, "stroke-width": num(thick)}
            weight = weight.plus(outlined(shape, thick, ()))
        pattern = texture.word >> 3 & 7
        ink = self.ink(entry)
        if not pattern or not self.paper.on_page:
            return Style({"fill": ink, **edge}, weight)
        wide, high = self._tile(texture)
        mask = self.paper.masks.get("ABCD"[pattern - 4]) if pattern >= 4 else None
        if mask is not None:
            weight = weight.plus(mask.weight.scaled(wide / WIDTH, high / WIDTH))
        weight = weight.plus(Weight(TILE, 0.0, shape.area * PATTERNED + wide * high))
        key = self._pattern(pattern, texture, ink, self.palette.back(entry.colour))
        return Style({"fill": f"url(#{key})", **edge}, weight)

    @staticmethod
    def _tile(texture: Texture) -> Tuple[float, float]:
        """The width and height of what a pattern repeats."""
        if not texture.mask:
            return USUAL_MASK, USUAL_MASK
        wide, high = (max(abs(length(side)), THIN) for side in texture.mask)
        return wide, high

    def _pattern(self, pattern: int, texture: Texture, ink: str, back: Optional[str]) -> str:
        """The name of the pattern that fills with this texture, defined once."""
        wide, high = self._tile(texture)
        mask = self.paper.masks.get("ABCD"[pattern - 4]) if pattern >= 4 else None
        version = f"-{mask.number}" if mask else ""
        key = "%sp%d-%s-%s-%s-%s%s" % (
            self.paper.prefix, pattern, ink[1:], back[1:] if back else "none", num(wide), num(high), version)
        key = key.replace(".", "_")
        if key not in self.paper.defined:
            inside = [_rect(wide, high, back)] if back else []
            inside += _crossed(pattern, wide, high, ink) if pattern < 4 else [self._masked(mask, wide, high, ink)]
            self.paper.define(key, Element("pattern", {"id": key, "width": num(wide), "height": num(high),
                                                       "patternUnits": "userSpaceOnUse"}, tuple(inside)))
        return key

    def _masked(self, mask: Optional[Definition], wide: float, high: float, ink: str) -> Element:
        """A mask of the page; a half tone where there is none."""
        if mask is not None:
            scale = f"scale({fine(wide / WIDTH)} {fine(high / WIDTH)})"
            return Element("g", {"color": ink, "transform": scale}, self.paper.drawing_of(mask))
        self.paper.note("a texture mask without a definition is drawn as a half tone")
        return Element("rect", {"width": num(wide), "height": num(high), "fill": ink, "fill-opacity": "0.5"})


@lru_cache(maxsize=1024)
def _thick(thick: float, dashes: Tuple[int, ...]) -> Dict[str, str]:
    """How thick a stroke is, and its dashes, if it has any."""
    attributes = {"stroke-width": num(thick)}
    if dashes:
        attributes["stroke-dasharray"] = " ".join(num(part * thick) for part in dashes)
    return attributes


def dashes_of(entry: Stroked) -> Tuple[int, ...]:
    """The dashes and gaps of a line or an outline, in thicknesses; none of a solid one."""
    return DASHES.get(entry.texture.word & 3, ())


def _crossed(pattern: int, wide: float, high: float, ink: str) -> List[Element]:
    """Upright lines, level lines, or both."""
    half = min(wide, high) / 4
    upright = [_rect(half, high, ink)] if pattern in (1, 3) else []
    return upright + ([_rect(wide, half, ink)] if pattern in (2, 3) else [])


def _rect(wide: float, high: float, colour: str) -> Element:
    return Element("rect", {"width": num(wide), "height": num(high), "fill": colour})
