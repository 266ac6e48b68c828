"""Large pages for measurements, of three families: with few codes, with every code, and with many of each."""
from typing import Callable, Dict, Union

from dev.measuring.every_code import DenseCode, EveryCode
from dev.measuring.few_codes import FewCodes

MIB = 1024 * 1024
# A page is one block over and over. Each block begins with its own values and its own position.
BLOCK = MIB
KINDS = ("points", "lines", "poly", "text", "mixed", "macros")
Pieces = Union[FewCodes, EveryCode]
FAMILIES: Dict[str, Callable[[str], Pieces]] = {"few": FewCodes, "every": EveryCode, "dense": DenseCode}


def page(family: str, kind: str, size: int) -> bytes:
    """A page of this kind, of this many bytes or somewhat fewer."""
    pieces = FAMILIES[family](kind)
    first = pieces.definitions() if kind == "macros" else b""
    most = min(size, BLOCK) - len(first)
    block = bytearray()
    while True:
        piece = getattr(pieces, kind)()
        if len(block) + len(piece) > most:
            break
        block += piece
    return first + bytes(block) * max(size // BLOCK, 1)
