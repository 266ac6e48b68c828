"""The tokens of a source in Rattle: what is a comment, a text or a character, and what counts of all.

A file is cut into words: texts and characters, the signs `(){};,@`, and all else between these and blanks. (In a clause
`n+n` is a name, so blanks around signs count.) In a clause comments are those of the logic, begun by `--` or `{-`, and
`//` is none: a file in which the two could be confused counts as it is.
"""
import re
from typing import Iterator, List, NamedTuple, Tuple

# A comment, a text or a character; a lifetime has no second quote.
UNREAD = re.compile(
    r"//[^\n]*|/\*.*?\*/|b?r(?P<hashes>#*)\".*?\"(?P=hashes)|b?\"(?:\\.|[^\"\\])*\"|b?'(?:\\.[^']*|[^'\\])'", re.DOTALL
)
MARKS = re.compile(r"(?P<begins>/\*)|\*/")
TOKEN = re.compile(rf"{UNREAD.pattern}|\w+|\S", re.DOTALL)
CLAUSE = re.compile(r"\b(?P<kind>requires|ensures|decreases)\b(?:\s+(?P<name>\w+))?\s*\{")
BRACKETS = {"{": re.compile(r"[{}]"), "(": re.compile(r"[()]"), "[": re.compile(r"[\[\]]")}
APART = "(){};,@"
CALL = re.compile(r"\.\w")
# A term of the logic beside the clauses.
GHOST = re.compile(r"\bghost\s+(?!use\b)[^;{]*(?P<opening>\{)?")
# What begins a comment of the logic, and what may hide one.
OF_LOGIC = re.compile(r"--|\{-")
QUOTED = re.compile(r"b?'\\?\"'")


def end_of_comment(text: str, start: int, marks: "re.Pattern[str]") -> int:
    """The place after a comment that may have others within it, by the marks that begin one and end one; -1 if it has
    no end."""
    depth = 0
    for found in marks.finditer(text, start):
        depth += 1 if found["begins"] else -1
        if depth == 0:
            return found.end()
    return -1


def unread_in(text: str) -> Iterator[Tuple[int, int]]:
    """The places of the comments, texts and characters of a source."""
    place = 0
    while True:
        found = UNREAD.search(text, place)
        if not found:
            return
        place = found.end()
        if found[0].startswith("/*"):
            place = max(place, end_of_comment(text, found.start(), MARKS))
        yield found.start(), place


class Source(NamedTuple):
    """A source: its text, the same without comments, and that with the insides of texts blanked, place by place."""

    text: str
    kept: str
    shape: str

    @classmethod
    def of(cls, text: str) -> "Source":
        """The source with this text."""
        kept, shape, place = [], [], 0
        for start, end in unread_in(text):
            blank = re.sub(r"[^\n]", " ", text[start:end])
            kept += [text[place:start], blank if text[start] == "/" else text[start:end]]
            shape += [text[place:start], blank]
            place = end
        return cls(text, "".join([*kept, text[place:]]), "".join([*shape, text[place:]]))

    def part(self, start: int, end: int) -> str:
        """The text between two places, with single blanks."""
        return " ".join(self.kept[start:end].split())

    def line(self, place: int) -> int:
        """The number of the line on which a place is."""
        return self.text.count("\n", 0, place) + 1

    def closing(self, opening: int) -> int:
        """The place after the bracket that closes the one at a place."""
        depth, bracket = 0, self.shape[opening : opening + 1]
        for found in BRACKETS[bracket].finditer(self.shape, opening) if bracket else ():
            depth += 1 if found[0] == bracket else -1
            if depth == 0:
                return found.end()
        return len(self.shape)

    def end_of_head(self, start: int) -> int:
        """The place of the brace or the semicolon after the head of an item or a loop, and after its clauses."""
        place, depth = start, 0
        while place < len(self.shape):
            clause = CLAUSE.match(self.shape, place)
            if clause:
                place = self.closing(clause.end() - 1)
                continue
            sign = self.shape[place]
            depth += (sign in "([") - (sign in ")]")
            if depth == 0 and sign in "{;":
                return place
            place += 1
        return place


def tokens(kept: str) -> str:
    """The tokens of a text without comments, with single blanks."""
    return " ".join(found[0] for found in TOKEN.finditer(kept))


def ghosts_in(source: Source) -> Iterator[Tuple[int, int]]:
    """The places of the terms of the logic in a source: clauses and ghost items."""
    for clause in CLAUSE.finditer(source.shape):
        yield clause.start(), source.closing(clause.end() - 1)
    for ghost in GHOST.finditer(source.shape):
        yield ghost.start(), source.closing(ghost.start("opening")) if ghost["opening"] else ghost.end()


def is_unclear(source: Source) -> bool:
    """Whether comments of Rattle and of the logic could be confused in a source."""
    if OF_LOGIC.search(source.shape):
        return True
    ghosts, text = list(ghosts_in(source)), source.text
    found = [start for start, end in unread_in(text) if text[start] == "/" or QUOTED.fullmatch(text, start, end)]
    return any(start <= place < end for start, end in ghosts for place in found)


def words_of(kept: str) -> Iterator[str]:
    """The words of a source without comments, each whole: a text, a sign that stands apart, or what has no blank and no
    such sign."""
    word, place = "", 0
    for found in TOKEN.finditer(kept):
        piece, start = found[0], found.start()
        # (a call may stand on a line of its own)
        is_joined = start == place or "\n" in kept[place:start] and CALL.match(kept, start)
        if word and (piece in APART or word in APART or not is_joined):
            yield word
            word = ""
        word, place = word + piece, found.end()
    if word:
        yield word


def tokens_of_rattle(text: str) -> List[str]:
    """What counts of a file of Rattle."""
    source = Source.of(text)
    return text.split("\n") if is_unclear(source) else list(words_of(source.kept))
