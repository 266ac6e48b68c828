"""The words of pages: a text's first ones, and what is looked for in texts.

What people type are words, each of which stands for all that begin so, and between quotes words that follow each other.
Accents, small and large letters make no difference.
"""
import re
import unicodedata
from typing import List, NamedTuple, Optional, Tuple

from . import messages

# The greatest number of characters of a page's text that is kept, and of its first words.
MOST_TEXT, FIRST = 1 << 16, 60
# The number of characters that are looked at for the first words, and of those that are asked for.
LOOKED_AT, MOST_ASKED, MOST_PARTS = 400, 400, 32
WORD = re.compile(r"[^\W_]+")
PART = re.compile(r'"([^"]*)"?|([^\s"]+)')


class NoWords(ValueError):
    """What is looked for has no word."""


class Phrase(NamedTuple):
    """Words that follow each other, and whether the last of them may continue."""

    words: Tuple[str, ...]
    goes_on: bool


def first_words(text: str) -> str:
    """The words that a text begins with, on one line."""
    words = " ".join(text[:LOOKED_AT].split())
    return words if len(words) <= FIRST else words[:FIRST + 1].rpartition(" ")[0] or words[:FIRST]


def folded(text: str) -> List[str]:
    """The words of a text as they are compared: in small letters, without accents."""
    return WORD.findall(_small(text))


def _small(text: str) -> str:
    """A text in small letters, without accents."""
    if not text.isascii():
        text = "".join(letter for letter in unicodedata.normalize("NFD", text) if not unicodedata.combining(letter))
    return text.lower()


def parse_query(text: str) -> List[Phrase]:
    """What is looked for. Raises NoWords."""
    if len(text) > MOST_ASKED:
        raise NoWords(messages.LONG_TO_FIND.format(most=MOST_ASKED))
    parts: List[Phrase] = []
    for phrase, word in PART.findall(text):
        words = folded(word or phrase)
        if words:
            parts.append(Phrase(tuple(words), bool(word)))
    if not parts:
        raise NoWords(messages.NO_WORD)
    if len(parts) > MOST_PARTS:
        raise NoWords(messages.MANY_WORDS.format(most=MOST_PARTS))
    return parts


def match_of(parts: List[Phrase]) -> str:
    """The same for FTS5. (Words are letters and digits alone, and stand in quotes, so nothing in them acts.)"""
    return " AND ".join('"%s"%s' % (" ".join(part.words), " *" if part.goes_on else "") for part in parts)


def has(words: List[str], part: Phrase) -> bool:
    """Whether these words have a part."""
    *before, last = part.words
    for at in range(len(words) - len(before)):
        end = words[at + len(before)]
        if (end.startswith(last) if part.goes_on else end == last) and words[at:at + len(before)] == before:
            return True
    return False


def lines_with(text: str, parts: List[Phrase]) -> Optional[List[str]]:
    """The lines of a text that have a part of what is looked for; none where the text doesn't have all parts.

    Words that follow each other may do so over the end of a line; then the line counts where they begin.
    """
    small = _small(text)
    # (few lines have any of the letters, and only these are cut into words)
    rows = [(line, WORD.findall(bare)) for line, bare in zip(text.split("\n"), small.split("\n"))
            if any(part.words[0] in bare for part in parts)]
    for part in parts:
        if not any(has(words, part) for _, words in rows):
            if len(part.words) == 1 or not has(WORD.findall(small), part):
                return None
    found = [line for line, words in rows if any(has(words, part) for part in parts)]
    return found or [line for line, words in rows if any(part.words[0] in words for part in parts)]
