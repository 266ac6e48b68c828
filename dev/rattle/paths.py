"""Paths of names, of Rattle and of the logic, which may end with groups of others: `A.{b, c::{d, e as f}}`."""
import re
from typing import Iterator, List, Tuple

PATH = re.compile(r"[A-Za-z_]\w*(?:(?:\.|::)[\w'-]+)*(?P<opening>(?:\.|::)\{)?")
BRACES = re.compile(r"[{}]")


def end_of_group(text: str, start: int) -> int:
    """The place of the brace that ends the group that begins before a place, or the end of the text."""
    depth = 1
    for found in BRACES.finditer(text, start):
        depth += 1 if found[0] == "{" else -1
        if depth == 0:
            return found.start()
    return len(text)


def parts_of(group: str) -> List[str]:
    """The parts of a group, between the commas that aren't in a group of their own."""
    parts, depth = [""], 0
    for sign in group:
        depth += (sign == "{") - (sign == "}")
        if sign == "," and depth == 0:
            parts.append("")
        else:
            parts[-1] += sign
    return [part.strip() for part in parts if part.strip()]


def names_of(path: str) -> List[str]:
    """The full names that a path has."""
    head, opening, rest = path.partition("{")
    if not opening:
        return [path.partition(" as ")[0].strip()]
    return [head + name for part in parts_of(rest[: end_of_group(rest, 0)]) for name in names_of(part)]


def names_in(text: str) -> Iterator[Tuple[int, str]]:
    """The full names of all paths of a text, each with the place where its path begins."""
    place = 0
    while True:
        found = PATH.search(text, place)
        if not found:
            return
        place = end_of_group(text, found.end()) if found["opening"] else found.end()
        yield from ((found.start(), name) for name in names_of(text[found.start() : place]))
