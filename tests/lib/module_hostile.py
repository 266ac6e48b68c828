"""Pages of some 600 bytes that are charged a mebibyte, and draw or hold as much as they can: each by its name."""
from typing import Dict

BUDGET = 1 << 20
SO, SI = b"\x0e", b"\x0f"
# The macro set is in G0, which is in use.
CALLS = b"\x1b(z"
# A body, and another that calls it so often.
BODY, MANY = 290, 256


def called(unit: bytes, before: bytes = b"", after: bytes = b"", setup: bytes = b"") -> bytes:
    """A page that calls a body of these units until its budget is charged."""
    count = (BODY - len(before) - len(after)) // len(unit)
    body = before + unit * count + after
    outer = BUDGET // (MANY * (len(body) + 1))
    many = b"\x1b@\x22" + b"\x21" * MANY + b"\x1bE"
    return setup + CALLS + b"\x1b@\x21" + body + b"\x1bE" + many + b"\x22" * outer


def pages() -> Dict[str, bytes]:
    """The pages, by what they have most of."""
    words = SO + b"\x21\x40" + SI
    point = SO + b"\x21\x40\x24\x5b" + SI
    return {
        "calls of no body": called(b"\x7e"),
        "APS": called(b"\x1c\x45\x45"),
        "REPEAT of 63": called(b"\x1bF\x7f", setup=b"A"),
        "bells": called(b"\x07"),
        "SS2": called(b"\x19\x51"),
        "underline on, off": called(b"\x1bY\x1bZ"),
        "designations": called(b"\x1b*}\x1b*b"),
        "ESC P": called(b"\x1bP"),
        "NUL": called(b"\0"),
        "points of one word": called(b"\x5b", SO + b"\x26", SI, words),
        "rectangles of one word": called(b"\x40", SO + b"\x30", SI, point),
        "circles": called(b"\x2c\x40", SO, SI, point),
        "maps": called(b"\x3c\x7f\x3c\x40", SO, SI, SO + b"\x21\x40\x3e\x7f" + SI),
        "FIELD": called(b"\x38", SO, SI),
        "TEXT": called(b"\x22\x40\x40", SO, SI),
        "SELECT COLOR": called(b"\x3e", SO, SI),
        "DOMAIN": called(b"\x21\x48\x21\x49", SO, SI),
        "RESET": called(b"\x20\x40\x50", SO, SI),
        "a body calls itself, last": CALLS + b"\x1b@\x21\x7e\x21\x1bE\x21",
        "a body calls itself, first": CALLS + b"\x1b@\x21\x21\x7e\x1bE\x21",
        "a body of one byte": CALLS + b"\x1b@\x21\x7e\x1bE\x1b@\x22" + b"\x21" * MANY + b"\x1bE" + b"\x22" * 2000,
        "a name bound again": b"\x1b@\x21" * 200 + b"\x1bE",
        "empty presentations": b"\x1bA\x21\x1bE" * 120,
    }
