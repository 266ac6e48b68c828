"""The crates have the public names that are fixed, with their variants, fields and types.

public-names.tsv has a row for each: the crate, the kind, the name, and the variants of an enum, the fields of a struct
or the types of a call, without the names of its parameters. A crate may have more names than the table.
"""
import csv
import functools
import re
from pathlib import Path
from typing import Dict, Iterator, List, Tuple

import pytest

from dev.crates import sources_of
from dev.layout import TOP
from dev.rattle.items import Item, Signature, items_in, members_of
from dev.rattle.tokens import Source

TABLE = Path(__file__).with_name("public-names.tsv")
# An impl of a type by itself; a trait; and an impl of a trait.
OWNER = re.compile(r"(?:(?:pub(?:\([^)]*\))? )?trait|impl(?:<.*?>)?) (?:\w+::)*(?P<type>\w+)(?!.* for )")
TRAIT = re.compile(r"(?:pub )?trait |impl.* for ")
with TABLE.open(encoding="utf-8", newline="") as file:
    ROWS = list(csv.DictReader(file, delimiter="\t"))
Key = Tuple[str, str]


def name_of(function: Item) -> str:
    """The name of a function, with its type or its trait before it; that of an impl of a trait stands alone."""
    found = OWNER.match(function.owner)
    return f"{found['type']}::{function.name}" if found else function.name


def rows_of(source: Source) -> Iterator[Tuple[Key, str]]:
    """The public enums, structs and calls of a source: their kinds and names, and what they have. A tuple has types."""
    for item in items_in(source):
        if item.visibility != "pub" and not TRAIT.match(item.owner):
            continue
        if item.kind == "fn":
            types, result = Signature.of(item)
            yield ("call", name_of(item)), f"({', '.join(types)}) -> {result or '()'}"
        elif item.kind in ("enum", "struct"):
            members = (member.name for member in members_of(source, item) if not member.is_ghost)
            yield (item.kind, item.name), " ".join(members)


@functools.lru_cache(maxsize=None)
def of_crate(crate: str) -> Dict[Key, List[str]]:
    """The enums, structs and calls of a crate, and what its sources say that they have."""
    found: Dict[Key, List[str]] = {}
    for path in sources_of(TOP / "crates" / crate):
        for key, text in rows_of(Source.of(path.read_text("utf-8"))):
            found.setdefault(key, []).append(text)
    return found


@pytest.mark.parametrize("row", ROWS, ids=lambda row: f"{row['crate']}-{row['kind']}-{row['name']}")
def test_a_name_has_what_is_fixed(row: Dict[str, str]) -> None:
    found = of_crate(row["crate"]).get((row["kind"], row["name"]), [])
    assert (row["what it has"] or "") in found, f"{row['crate']} has no such {row['kind']} {row['name']}"
