"""Each public item of a crate has its sentence, but for laws and tests.

An item is a function, a type, a trait with its functions, a field, a variant or a constant, where it is `pub` without a
narrower reach. A module says at its top what it holds, and is none. The sentence of a function begins with a verb in
the third person, or with Whether where it gives a bool.
"""
import re
from typing import Iterator

import pytest

from dev.crates import sources_of
from dev.layout import TOP
from dev.rattle.items import Item, Signature, items_in, members_of
from dev.rattle.tokens import Source
from halves import HALVES

CRATES = sorted(path.parent.name for path in TOP.glob("crates/*/src"))
# The functions of this file of a crate are laws, whose sentence is the statement itself.
LAWS = "laws.rt"
KINDS = ("fn", "struct", "enum", "trait", "type", "static", "const")
# A verb in the third person, by its end; and words that end so and are none.
VERB = re.compile(
    r"(?!(?:This|Its|Bytes|Entries|Lines|Opcodes|Points|Operands|Limits|Words|Colours|Always|Perhaps|Yes|Codes|"
    r"Characters|Pieces|Places|As|Less)\b)[A-Z][a-z]*s\b"
)
LEANS = re.compile(r"(?:It|They|This|These|Those|The same|Then|So)\b")


def public_items(source: Source) -> Iterator[Item]:
    """The public items of a source. A variant is public where its enum is, a function of a trait where that is."""
    for item in items_in(source):
        is_public = item.visibility == "pub"
        if item.kind in KINDS and not item.is_ghost and is_public or (
                item.kind == "fn" and item.owner.startswith("pub trait ")):
            yield item
        for member in members_of(source, item):
            if member.kind == "variant" and is_public or (
                    member.kind == "field" and member.visibility == "pub" and not member.is_ghost):
                yield member


def fault_of(item: Item) -> str:
    """What is wrong with the sentence of an item, or nothing."""
    sentence = item.comment
    if not sentence:
        return "has no sentence"
    if LEANS.match(sentence):
        return f"has a sentence that leans on another: {sentence[:60]}"
    if item.kind != "fn":
        return ""
    if sentence.startswith("Whether "):
        begins = Signature.of(item).result == "bool"
    else:
        begins = VERB.match(sentence) is not None
    return "" if begins else f"has a sentence that begins with no verb: {sentence[:60]}"


@pytest.mark.parametrize("crate", CRATES)
def test_public_items_have_sentences(crate: str) -> None:
    wrong = []
    for path in sources_of(TOP / "crates" / crate):
        source = Source.of(path.read_text("utf-8"))
        for item in public_items(source) if path.name != LAWS else ():
            fault = fault_of(item)
            if fault:
                wrong.append(f"{path.relative_to(TOP)}:{source.line(item.start)}: {item.kind} {item.name} {fault}")
    assert not wrong, "\n".join(wrong)


def test_what_is_wrong_with_sentences() -> None:
    found = [(item.kind, item.name, item.comment, not fault_of(item)) for item in public_items(Source.of(HALVES))]
    assert found == [
        ("const", "MAX", "What is halved at most.", True), ("field", "call", "", False), ("struct", "Pair", "", False),
        ("enum", "Kind", "What a half is.", True), ("variant", "Sized", "Of this many bytes, {", True),
        ("variant", "Named", "", False), ("variant", "None", "", False),
        ("fn", "of", "Returns the half, { rounded down.", True), ("fn", "is_even", "Whether it is even.", True),
        ("fn", "parity", "Whether it is even.", False), ("trait", "Halves", "Takes halves.", True),
        ("fn", "put", "Bytes of a half.", False), ("fn", "give", "", False), ("fn", "apart", "So it does.", False),
    ]
