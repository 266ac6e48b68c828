"""Sketches: pictures of pages as SVG, drawn from the lines of `naplps list`. docs/SKETCH.md says what is exact."""
from .walk import Drawn, Guess, Sketch, draw, drawn, empty

__all__ = ["Drawn", "Guess", "Sketch", "draw", "drawn", "empty"]
