"""The kinds of lines that `naplps list` prints: the words that one begins with, and the sorts of the fields after them.

The program reads lines by the same table, crates/nap_make/src/kind.rt. Two dots stand where more points may.
"""
from typing import Dict, Tuple

_INK, _HAND = "Pel Colour Texture", "Pen Colour Look"
_TWO_POINTS, _ARC, _POLYGON = f"Point Point {_INK}", f"Point Point Point .. {_INK}", f"Point Point .. {_INK}"
KINDS: Dict[str, str] = {
    "POINT": "Point Pel Colour",
    "LINE": _TWO_POINTS,
    "ARC-OUTLINED": _ARC,
    "ARC-FILLED": _ARC,
    "RECT-OUTLINED": _TWO_POINTS,
    "RECT-FILLED": _TWO_POINTS,
    "POLY-OUTLINED": _POLYGON,
    "POLY-FILLED": _POLYGON,
    "CHAR": f"Set Code {_HAND}",
    "MOVE": f"Step {_HAND}",
    "MOVE APS": f"Code Code {_HAND}",
    "TO-EOL": _HAND,
    "MAP": "Addr Parts",
    "BLINK": "Addr Times Colour",
    "BLINK-END": "Colour",
    "BLINK-START": "Colour",
    "BLINK-STOP": "Colour",
    "WAIT": "Word",
    "BELL": "",
    "CURSOR": "Cursor",
    "FIELD whole": "Pen",
    "FIELD": "Point Point Pen",
    "RESET": "Word Word Pen",
    "CLEAR": "Pen",
    "GLYPH": "Code",
    "MASK": "Mask",
    "END": "",
}
# The names before the values of what entries hold.
KEYS = {"Pel": "pel", "Colour": "colour", "Texture": "texture", "Pen": "pen", "Look": "text"}
# The values that have names; and the sizes of text that have.
CHOICES: Dict[str, Tuple[str, ...]] = {
    "Set": ("primary", "supplementary", "mosaic", "drcs"), "Step": ("APB", "APF", "APD", "APU", "APR", "APH"),
    "Cursor": ("flash", "steady", "off"), "Mask": ("A", "B", "C", "D")}
SIZES = ("small", "medium", "normal", "tall", "double")
MORE = " .. "
