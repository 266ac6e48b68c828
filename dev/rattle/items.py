"""The items of a source in Rattle: functions with clauses and bodies, types with members, impls, imports."""
import re
from itertools import takewhile
from typing import Iterator, List, NamedTuple, Tuple

from dev.rattle.tokens import CLAUSE, Source

HEAD = re.compile(
    r"(?P<visibility>pub(?:\([^)]*\))?\s+)?(?P<ghost>ghost\s+)?"
    r"(?:(?:const(?=\s+(?:unsafe|extern|fn)\b)|unsafe|extern)\s+)*"
    r"(?:(?P<kind>fn|struct|enum|trait|impl|mod|use|type|static|const|macro_rules!)(?=\W)\s*)?(?P<name>\w+)?"
)
MEMBER = re.compile(r"(?P<visibility>pub(?:\([^)]*\))?\s+)?(?P<ghost>ghost\s+)?(?P<name>\w+)(?P<colon>\s*:(?!:))?")
INNER, ATTRIBUTE = re.compile(r"#!(?=\[)"), re.compile(r"#(?=\[)")
BRACKET = re.compile(r"[{(\[;]")
# What opens a part's brackets, or ends a part. (The last sign of an arrow closes nothing.)
PART = re.compile(r"[({\[<,]|(?<![-=])>")
GAP = re.compile(r"\s*")
NAME = re.compile(r"\b(?:fn|struct|enum)\s+\w+")
# What holds other items; and what ends with its braces.
HOLDERS, BRACED = ("impl", "trait", "mod"), ("fn", "struct", "enum", "macro_rules!")


class Clause(NamedTuple):
    """A clause: `requires`, `ensures` or `decreases`, its name if it has one, its place, and what its braces hold."""

    kind: str
    name: str
    start: int
    text: str


class Item(NamedTuple):
    """An item, or a member of a type.

    Its kind is the word that begins it, or `ghost`; of members `field`, `part` (of a tuple, whose name is its type's)
    or `variant`. The owner is the head of the impl or the trait in which it stands, or nothing. The head has the words
    without clauses. The body begins and ends at the same place where there is none.
    """

    kind: str
    name: str
    owner: str
    visibility: str
    is_ghost: bool
    attributes: List[str]
    comment: str
    head: str
    clauses: List[Clause]
    start: int
    body: Tuple[int, int]


def after_gap(source: Source, place: int) -> int:
    """The place after blanks and comments, and after attributes of the file or the module."""
    while True:
        found = GAP.match(source.shape, place)
        assert found is not None
        inner = INNER.match(source.shape, found.end())
        if not inner:
            return found.end()
        place = source.closing(inner.end())


def attributes_from(source: Source, place: int) -> Tuple[List[str], int]:
    """The attributes that stand from a place on, and the place of what comes after them."""
    found: List[str] = []
    while True:
        mark = ATTRIBUTE.match(source.shape, place)
        if not mark:
            return found, place
        end = source.closing(mark.end())
        found.append(source.part(place, end))
        place = after_gap(source, end)


def comment_above(source: Source, place: int) -> str:
    """The words of the doc comment whose lines end above a place."""
    above = map(str.strip, reversed(source.text[:place].split("\n")[:-1]))
    lines = [line[3:].strip() for line in takewhile(lambda line: line.startswith("///"), above)]
    return " ".join(reversed(lines))


def end_of_statement(source: Source, place: int) -> int:
    """The place of the semicolon that isn't within brackets."""
    while True:
        found = BRACKET.search(source.shape, place)
        if not found or found[0] == ";":
            return found.start() if found else len(source.shape)
        place = source.closing(found.start())


def clauses_in(source: Source, start: int, end: int) -> List[Clause]:
    """The clauses of a head that stands between two places."""
    return [Clause(found["kind"], found["name"] or "", found.start(),
                   source.part(found.end(), source.closing(found.end() - 1) - 1))
            for found in CLAUSE.finditer(source.shape, start, end)]


def items_in(source: Source, place: int = 0, end: int = -1, owner: str = "") -> Iterator[Item]:
    """The items of a source in their order, each before those that it holds; none that stands in a function's body."""
    end = len(source.shape) if end < 0 else end
    while True:
        first = after_gap(source, place)
        attributes, start = attributes_from(source, first)
        if start >= end:
            return
        found = HEAD.match(source.shape, start)
        assert found is not None
        kind = found["kind"] or ("ghost" if found["ghost"] else "")
        stop = source.end_of_head(start) if kind in (*HOLDERS, *BRACED) else end_of_statement(source, start)
        has_braces = source.shape[stop : stop + 1] == "{"
        place = source.closing(stop) if has_braces else stop + 1
        clauses = clauses_in(source, start, stop) if kind == "fn" else []
        head = source.part(start, clauses[0].start if clauses else stop)
        yield Item(
            kind, found["name"] or "", owner, (found["visibility"] or "").strip(), bool(found["ghost"]), attributes,
            comment_above(source, first), head, clauses, start, (stop, place if has_braces else stop),
        )
        if kind in HOLDERS and has_braces:
            yield from items_in(source, stop + 1, place - 1, owner if kind == "mod" else head)


def functions_in(text: str) -> List[Item]:
    """The functions of a source."""
    return [item for item in items_in(Source.of(text)) if item.kind == "fn"]


def parts_between(source: Source, start: int, end: int) -> Iterator[Tuple[int, int]]:
    """The places of the parts of a list, between the commas outside brackets."""
    place, depth = start, 0
    while True:
        found = PART.search(source.shape, place, end)
        if not found:
            break
        depth += (found[0] == "<") - (found[0] == ">")
        place = source.closing(found.start()) if found[0] in "({[" else found.end()
        if found[0] == "," and depth == 0:
            yield start, found.start()
            start = place
    if source.shape[start:end].strip():
        yield start, end


def members_of(source: Source, item: Item) -> Iterator[Item]:
    """The fields of a struct, or the variants of an enum."""
    named = NAME.search(source.shape, item.start) if item.kind in ("struct", "enum") else None
    opening = BRACKET.search(source.shape, named.end()) if named else None
    if not opening or opening[0] == ";":
        return
    for start, end in parts_between(source, opening.end(), source.closing(opening.start()) - 1):
        first = after_gap(source, start)
        attributes, place = attributes_from(source, first)
        found = MEMBER.match(source.shape, place, end)
        if found:
            kind = "variant" if item.kind == "enum" else "field" if found["colon"] else "part"
            yield Item(
                kind, found["name"], item.name, (found["visibility"] or "").strip(), bool(found["ghost"]), attributes,
                comment_above(source, first), source.part(place, end), [], place, (end, end),
            )


class Signature(NamedTuple):
    """What a function takes and gives: the types of its parameters, and that of its result, or nothing."""

    types: List[str]
    result: str

    @classmethod
    def of(cls, function: Item) -> "Signature":
        """What a function takes and gives."""
        head = Source.of(function.head)
        named = NAME.search(head.shape)
        assert named is not None
        opening = head.shape.index("(", named.end())
        end = head.closing(opening)
        parameters = [head.part(*span) for span in parts_between(head, opening + 1, end - 1)]
        types = [text if text.endswith("self") else text.partition(":")[2].strip() for text in parameters]
        return cls(types, re.split(r"\bwhere\b", head.kept[end:].partition("->")[2])[0].strip())
