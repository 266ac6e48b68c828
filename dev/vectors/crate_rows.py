"""Reads the rows of crates/nap_rows/data, in the notation that README.md describes there."""
from __future__ import annotations

import re
from dataclasses import dataclass
from pathlib import Path

from dev.vectors.notation import bytes_of, lines_of

USUAL = 1048576
NUMBER = r"(\d+|-)"
STOPS = r"[\d/* ]+"
ITEM = re.compile(rf"(not )?plain|(budget|fed) \d+|(charged|turns) {NUMBER}|(stops|breaks) {STOPS}|form1 .+")


@dataclass(frozen=True)
class Row:
    """A stream; the lines of its entries, its canonical stream and its text in form 1, where the row tells them; or its
    refusal; and whether it is plain, where the row tells that."""

    place: str
    stream: bytes
    lines: list[str] | None
    canonical: bytes | None
    refusal: str | None
    budget: int
    plain: bool | None
    form1: bytes | None


def items_of(text: str) -> dict[str, str]:
    """What stands behind each word of a fourth field; raises ValueError for an item that says nothing."""
    items = [item.strip() for item in text.split(",") if item.strip()]
    for item in items:
        if not ITEM.fullmatch(item):
            raise ValueError(f"an item says nothing: {item}")
    return {word: value for word, _, value in (item.partition(" ") for item in items)}


def row_of(place: str, text: str) -> Row:
    """The row of a line that has one; raises ValueError for a line with too few fields or too many."""
    stream, lines, result, extra = (field.strip() for field in (text if text.count("|") > 2 else text + "|").split("|"))
    items = items_of(extra)
    refused = result.startswith("refused ")
    return Row(
        place, bytes_of(stream), None if lines == "-" else lines_of(lines),
        None if refused or result == "-" else bytes_of(result), result if refused else None,
        int(items.get("budget", USUAL)), True if "plain" in items else False if "not" in items else None,
        bytes_of(items["form1"]) if "form1" in items else None,
    )


def rows_of(folder: Path) -> list[Row]:
    """All rows of a folder."""
    rows = []
    for path in sorted(folder.glob("*.rows")):
        for number, text in enumerate(path.read_text().splitlines(), 1):
            if text.strip() and not text.startswith("#"):
                rows.append(row_of(f"{path.name}:{number}", text))
    return rows
