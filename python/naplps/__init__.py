"""Reads pages of NAPLPS (ANSI X3.110-1983, CSA T500-1983) that are in memory.

    import naplps
    for entry in naplps.entries(page):
        print(entry)
    page = naplps.make(["CLEAR pen=start", "BELL"])

A page is bytes, bytearray or memoryview; each function takes one, and a budget: how many bytes of macro bodies the page
may be charged with, from 0 to MOST_BUDGET. The functions ask the library libnaplps where that is there, and else the
program naplps, with the same answers; `backend` says which. Threads may call them at the same time.

Beside what each one names, a function raises

- TypeError for another page, and for a budget that isn't a whole number; ValueError for a budget out of its range;
- NoMemory, a MemoryError, where memory ran out, and NoAnswer where the program failed: neither says anything of the
  page;
- Unavailable where there is nothing to ask.
"""
import importlib
from typing import TYPE_CHECKING, List

if TYPE_CHECKING:
    from .answers import Find, Finds
    from .backends import Backend, Data
    from .dots import Raster, raster
    from .entry import (
        ONE, Arc, Bell, Blink, BlinkEnd, BlinkMark, Char, Clear, Colour, Cursor, DefEnd, Entry, Field, GlyphStart, Line,
        Look, Map, MaskStart, Pen, Point, Poly, Position, Rect, Reset, TextMove, Texture, ToEol, Wait,
    )
    from .faults import Error, NeedsLibrary, NoAnswer, NoMemory, NotMade, Refused, Unavailable, WrongLibrary
    from .finds import find, finds_in
    from .limits import MOST_BUDGET, USUAL_BUDGET
    from .pages import (
        Checker, Places, backend, canon, canon_form1, check, entries, is_plain, lines, make, places, svg, text,
        treatments,
    )
    from .treating.changes import Change, Edit
    from .treating.treatments import Cure
    from .version import __version__

__all__ = [
    "MOST_BUDGET", "ONE", "USUAL_BUDGET", "Arc", "Backend", "Bell", "Blink", "BlinkEnd", "BlinkMark", "Change", "Char",
    "Checker", "Clear", "Colour", "Cure", "Cursor", "Data", "DefEnd", "Edit", "Entry", "Error", "Field", "Find",
    "Finds", "GlyphStart", "Line", "Look", "Map", "MaskStart", "NeedsLibrary", "NoAnswer", "NoMemory", "NotMade", "Pen",
    "Places", "Point", "Poly", "Position", "Raster", "Rect", "Refused", "Reset", "TextMove", "Texture", "ToEol",
    "Unavailable", "Wait", "WrongLibrary", "__version__", "backend", "canon", "canon_form1", "check", "entries", "find",
    "finds_in", "is_plain", "lines", "make", "places", "raster", "svg", "text", "treatments",
]
# Where the names stand. A module is imported once the first of them is asked for, as few programs need them all.
_NAMES = {
    "answers": ("Find", "Finds"), "backends": ("Backend", "Data"), "dots": ("Raster", "raster"),
    "entry": (
        "ONE", "Arc", "Bell", "Blink", "BlinkEnd", "BlinkMark", "Char", "Clear", "Colour", "Cursor", "DefEnd", "Entry",
        "Field", "GlyphStart", "Line", "Look", "Map", "MaskStart", "Pen", "Point", "Poly", "Position", "Rect", "Reset",
        "TextMove", "Texture", "ToEol", "Wait"),
    "faults": ("Error", "NeedsLibrary", "NoAnswer", "NoMemory", "NotMade", "Refused", "Unavailable", "WrongLibrary"),
    "finds": ("find", "finds_in"),
    "limits": ("MOST_BUDGET", "USUAL_BUDGET"),
    "pages": (
        "Checker", "Places", "backend", "canon", "canon_form1", "check", "entries", "is_plain", "lines", "make",
        "places", "svg", "text", "treatments"),
    "treating.changes": ("Change", "Edit"), "treating.treatments": ("Cure",),
    "version": ("__version__",)}
_MODULES = {name: module for module, names in _NAMES.items() for name in names}


def _asked_for(name: str) -> object:
    """A name of the module, which is kept."""
    if name not in _MODULES:
        raise AttributeError(f"module {__name__!r} has no attribute {name!r}")
    value = globals()[name] = getattr(importlib.import_module(f".{_MODULES[name]}", __name__), name)
    return value


def __dir__() -> List[str]:
    return sorted({*globals(), *_MODULES})


if not TYPE_CHECKING:  # (which would take any name)
    __getattr__ = _asked_for
