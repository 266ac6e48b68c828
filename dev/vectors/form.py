"""The form of a vector: how each of its fields is spelled."""
import re
from typing import Callable, Dict

from dev.vectors.notation import bytes_of, counted, lines_of, listed, numbers_of, spelled
from dev.vectors.readings import SHORT
from dev.vectors.rows import Vector

BYTES = re.compile(r"(?:(?:[0-9A-F]{2}|\([0-9A-F]{2}(?: [0-9A-F]{2})+\))(?:\*[0-9]+)?(?: (?!$)|$))*")
REFUSED = re.compile(r"refused [0-9]+ \w+( [A-Z0-9-]+)? at [0-9]+")
LONGEST_TITLE = 160


def is_spelled(text: str) -> bool:
    """Whether bytes are spelled as dev.make_vectors spells them."""
    return BYTES.fullmatch(text) is not None and spelled(bytes_of(text)) == text


WORDS: Dict[str, Callable[[str], bool]] = {
    "plain": lambda text: text == "", "not": lambda text: text == "plain",
    "budget": str.isdigit, "charged": str.isdigit, "turns": str.isdigit, "fed": str.isdigit,
    "places": lambda text: counted(numbers_of(text)) == text, "form1": is_spelled,
}


def has_form(vector: Vector) -> bool:
    """Whether each field is spelled as dev.make_vectors spells it, and each word of the fourth is one of the format."""
    words = [word for word in WORDS if word in vector.more]
    return (
        BYTES.fullmatch(vector.stream) is not None
        and listed(lines_of(vector.list)) == vector.list
        and (is_spelled(vector.ending) if vector.accepted else REFUSED.fullmatch(vector.ending) is not None)
        and len(vector.shows) < LONGEST_TITLE
        and list(vector.more) == words
        and ("plain" in words) != ("not" in words)
        and ("places" in words) == (vector.list != "" and len(vector.data) <= SHORT)
        and all(WORDS[word](text) for word, text in vector.more.items())
    )
