"""No run of nine words is in two documents: one has a link to the other.

Documents are those of the top, of docs and of crates, but for the changelog, and the manual pages. Commands, code,
tables and sentences that have to be in several places aren't looked at.
"""
import re
from typing import Dict, Iterator, List, Tuple

from dev.layout import TOP

LENGTH = 9
# Sentences that have to be in more than one document, word for word.
FIXED = (
    "Proving each function and building the program takes some 30 minutes on four processors, 40 on one",
    "For streams that the reader accepts, canonical streams have equal bytes exactly if the display lists that the "
    "standard's rules give are equal; a canonical stream uses no macro, no REL opcode and one operand size, is "
    "accepted with that same display list and is its own canonical stream; and every answer, refusals with their "
    "places included, is independent of how the input was cut",
)
WORD = re.compile(r"[A-Za-z0-9][\w'.,/-]*")
Words = Tuple[str, ...]


def words_of(text: str) -> List[str]:
    """The words of a text, in lower case."""
    return [word.lower().rstrip(".,") for word in WORD.findall(text)]


def paragraphs_of_markdown(text: str) -> Iterator[str]:
    """The prose of a document: paragraphs and items, without code, tables and headings."""
    text = re.sub(r"^```.*?^```", "", text, flags=re.MULTILINE | re.DOTALL)
    text = re.sub(r"^ {4}\S.*$|^[|#<].*$", "", text, flags=re.MULTILINE)
    text = re.sub(r"\]\([^)]*\)", "]", text)
    yield from re.split(r"\n\s*\n|\n(?=\s*(?:[-*]|\d+\.) )", text)


def paragraphs_of_manual(text: str) -> Iterator[str]:
    """The prose of a manual page: the text between its marks for paragraphs, without displays and the synopsis."""
    text = re.sub(r"^\.Bd.*?^\.Ed", "", text, flags=re.MULTILINE | re.DOTALL)
    text = re.sub(r"^\.Sh SYNOPSIS.*?(?=^\.Sh )", "", text, flags=re.MULTILINE | re.DOTALL)
    for part in re.split(r"^\.(?:Pp|It|Sh|Ss|Bl|El).*$", text, flags=re.MULTILINE):
        yield re.sub(r"^\.(?:[A-Z]\w )+|\\[-e&]|\b(?:Fl|Ar|Cm|Ql|Li|Pa|Ns|No) ", " ", part, flags=re.MULTILINE)


def paragraphs() -> Iterator[Tuple[str, List[str]]]:
    """The documents, each once for each of its paragraphs, with the words of that."""
    patterns = ("*.md", "docs/**/*.md", "crates/*/README.md", "man/*.1")
    paths = {path for pattern in patterns for path in TOP.glob(pattern)} - {TOP / "CHANGELOG.md"}
    for path in sorted(paths):
        split = paragraphs_of_manual if path.suffix == ".1" else paragraphs_of_markdown
        for part in split(path.read_text("utf-8")):
            yield str(path.relative_to(TOP)), words_of(part)


def runs_of(words: List[str]) -> List[Words]:
    """The runs of nine words."""
    return [tuple(words[start:start + LENGTH]) for start in range(len(words) - LENGTH + 1)]


def repeats() -> Iterator[str]:
    """The runs that are in two documents, each place once, with its first words."""
    fixed = {run for text in FIXED for run in runs_of(words_of(text))}
    owners: Dict[Words, str] = {}
    for document, words in paragraphs():
        within = ""
        for run in runs_of(words):
            owner = owners.setdefault(run, document)
            if owner != document and run not in fixed and within != owner:
                yield f"{owner} and {document}: {' '.join(run)} .."
            within = "" if owner == document else owner


def test_no_nine_words_are_in_two_documents() -> None:
    assert list(repeats()) == []
