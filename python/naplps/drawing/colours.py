"""Colours of the drawing."""
from functools import lru_cache
from typing import Dict, Iterable, List, Optional, Tuple

from ..entry import Colour, Entry, Map

OWN = "#ffffff"
BLACK = "#000000"


def _hue(angle: float) -> str:
    """The full colour at an angle of the circle of hues, which has blue at 0, red at 120 and green at 240 degrees."""
    parts = []
    for at in (120, 240, 0):
        away = abs(angle - at)
        away = min(away, 360 - away)
        parts.append(round(255 * max(0.0, min(1.0, 2 - away / 60))))
    return "#%02x%02x%02x" % tuple(parts)


def first_map() -> List[str]:
    """The first colours of the map: eight greys from black to white, eight hues from blue."""
    greys = ["#%02x%02x%02x" % ((round(255 * step / 7),) * 3) for step in range(8)]
    return greys + [_hue(45.0 * step) for step in range(8)]


FIRST = first_map()


@lru_cache(maxsize=4096)
def direct(parts: Tuple[int, ...]) -> str:
    """The colour of green, red and blue in 16 bits each, by their upper eight bits."""
    green, red, blue = (part >> 8 for part in parts)
    return f"#{red:02x}{green:02x}{blue:02x}"


class Palette:
    """The colour map as the last entry leaves it."""

    def __init__(self, entries: Iterable[Entry]) -> None:
        self.map: Dict[int, str] = {}
        for entry in entries:
            if isinstance(entry, Map):
                self.map[entry.address] = direct(entry.value)

    def take_from(self, other: "Palette") -> None:
        """Takes the colours that another one has."""
        self.map.update(other.map)

    def at(self, address: int) -> str:
        """The colour at an address; what the page doesn't set is the first one, by the upper four bits."""
        return self.map.get(address) or FIRST[address >> 20 & 15]

    def front(self, colour: Colour) -> str:
        """The colour that is drawn with."""
        if colour.kind == "direct":
            return direct(colour.parts)
        if colour.kind in ("front", "pair"):
            return self.at(colour.parts[0])
        return OWN

    def back(self, colour: Colour) -> Optional[str]:
        """The background of a character or a texture, of a pair."""
        if colour.kind == "pair":
            return self.at(colour.parts[1])
        return None
