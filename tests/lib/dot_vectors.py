"""The vectors of dots that have rows."""
from pathlib import Path

from command import TOP
from vectors import dots

VECTORS = Path(TOP, "vectors")
DRAWN = [vector for name in ("dots.txt", "dots-moves.txt") for vector in dots.vectors(VECTORS / name)]
