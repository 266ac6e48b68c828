"""The files of the logic (.antt): their tokens, what they import, and what they define.

Layout is by indentation, so lines count as tokens: each without comments, blanks at its end, and more than one blank
within it.
"""
import re
from pathlib import Path
from typing import Dict, List, NamedTuple, Optional

from dev.rattle.tokens import end_of_comment

WORD = r"[A-Za-z_][\w'-]*"
# The head of a definition: of a type, or of any other.
DEFINITION = re.compile(rf"(?:abbrev |unfoldable )?(?:pub )?(?:(?:data|record) (?:pub )?({WORD})|({WORD}) :)")
CONSTRUCTOR = re.compile(rf"  ({WORD}) :")
IMPORT = re.compile(
    r"(?P<words>(?:unfoldable )?(?:pub )?use) (?P<module>\S+?)(?P<group>\.\{(?P<names>[^}]*)\})?(?: as (?P<alias>\w+))?"
)
# A text or a comment. (Two dashes within a name begin none.)
UNREAD = re.compile(r"\"(?:\\.|[^\"\\\n])*\"|(?P<line>(?<![^\s(){}.;,@\"«»])--[^\n]*)|(?P<block>\{-)")
BLOCK = re.compile(r"(?P<begins>\{-)|-\}")
UNCLEAR = re.compile(r"\{--|--\}")
# After these words the next token's place begins a block.
OPENS = re.compile(r"\b(?:do|where|mutual|deriving)\b.*\S")


def without_comments(text: str) -> str:
    """A file of the logic with blanks in place of its comments."""
    cut: List[str] = []
    place = done = 0
    while True:
        found = UNREAD.search(text, place)
        if not found:
            return "".join([*cut, text[done:]])
        place = found.end()
        if found["block"]:
            place = end_of_comment(text, found.start(), BLOCK)
            if place < 0:
                return "".join([*cut, text[done:]])
        if found["block"] or found["line"]:
            cut += [text[done : found.start()], re.sub(r"[^\n]", " ", text[found.start() : place])]
            done = place


def tokens_of_logic(text: str) -> List[str]:
    """What counts in a file of the logic: its lines."""
    if UNCLEAR.search(text):
        return text.split("\n")
    found = []
    for line in without_comments(text).split("\n"):
        kept = line.rstrip()
        if kept and '"' not in kept and not OPENS.search(kept):
            indent = len(kept) - len(kept.lstrip())
            kept = kept[:indent] + " ".join(kept.split())
        if kept:
            found.append(kept)
    return found


class Import(NamedTuple):
    """What a line imports: the words before it, a module, its names if it has a group, and what it is called here."""

    words: str
    module: str
    names: Optional[List[str]]
    alias: str

    @classmethod
    def of(cls, line: str) -> "Optional[Import]":
        """What a line imports, if it does."""
        found = IMPORT.fullmatch(line)
        if not found:
            return None
        names = [name.strip() for name in found["names"].split(",")] if found["group"] else None
        return cls(found["words"], found["module"], names, found["alias"] or "")


class Definition(NamedTuple):
    """A definition: its name, its text, and its constructors if it is a data type."""

    name: str
    text: str
    constructors: List[str]

    @classmethod
    def of(cls, name: str, lines: List[str]) -> "Definition":
        """The definition with these lines."""
        inner = filter(None, map(CONSTRUCTOR.match, lines)) if "data " in lines[0] else ()
        return cls(name, "\n".join(lines), [found[1] for found in inner])


class Logic(NamedTuple):
    """What a file imports, and what it defines, by the names in their order."""

    imports: List[Import]
    definitions: Dict[str, Definition]

    @classmethod
    def of(cls, text: str) -> "Logic":
        """What a file with this text has."""
        imports: List[Import] = []
        blocks: Dict[str, List[str]] = {}
        name = ""
        for line in without_comments(text).split("\n"):
            imported, head = Import.of(line.rstrip()), DEFINITION.match(line)
            if imported:
                imports.append(imported)
                continue
            name = head[1] or head[2] if head else name
            if name:
                blocks.setdefault(name, []).append(line)
        return cls(imports, {name: Definition.of(name, lines) for name, lines in blocks.items()})


def files_by_name(top: Path) -> Dict[str, List[str]]:
    """For each name, the files of the crates' specs/ that define it. What `rt check` makes there isn't looked at."""
    found: Dict[str, List[str]] = {}
    for path in sorted(top.glob("crates/*/specs/*.antt")):
        for name in Logic.of(path.read_text("utf-8")).definitions:
            found.setdefault(name, []).append(str(path.relative_to(top)))
    return found
