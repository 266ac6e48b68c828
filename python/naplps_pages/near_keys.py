"""The keys by which pages are found that are almost equal, as values: what `nearness` makes of a list."""
from typing import NamedTuple, Optional

# The number of this form of the keys: those of another one aren't compared with them.
FORM = 1
# The fewest entries of a beginning: all but its last are the first ones of the longer page.
LEAST_ENTRIES = 8
# The most characters in which the words of a page are looked for.
MOST_SAID = 1 << 16
# The bytes of a key, and of the hash of first entries.
KEY, PREFIX = 16, 8


class NearKeys(NamedTuple):
    """What of a list is compared: the hash of what is left of it without words, colours and places; the hash of its
    first entries, for each number of them; and its words, each once, in their order, with blanks between."""

    words: bytes
    colours: bytes
    places: bytes
    prefixes: bytes
    said: str

    @property
    def start(self) -> Optional[bytes]:
        """The hash of as many first entries as a beginning and what continues it have alike at least."""
        at = (LEAST_ENTRIES - 2) * PREFIX
        return self.prefixes[at:at + PREFIX] or None
