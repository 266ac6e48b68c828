"""Which pages of a report are almost equal to which others, where the store has the keys for that."""
import sqlite3
from collections import defaultdict
from typing import Dict, List, NamedTuple, Tuple

from ..collection.kept import NEAR_KEYS
from ..collection.near import NearGroups
from ..nearness import WORDS, Beginning, Difference, ListedPage, difference, words_of
from .files import ReportFile

# The most pages that are named as almost equal to one, for each thing in which they may differ.
MOST_NEAR = 6
LAST = {True: "with its last entry", False: "but for its last entry"}


class NearFile(NamedTuple):
    """A page that is almost equal to another one: its canonical hash, and the text on it there."""

    canon: bytes
    text: str


class NearFiles:
    """Finds the pages that are almost equal to one."""

    def __init__(self, connection: sqlite3.Connection) -> None:
        self.groups: Dict[bytes, List[Tuple[Difference, ListedPage]]] = defaultdict(list)
        self.beginnings: Dict[bytes, List[Beginning]] = defaultdict(list)
        if not NEAR_KEYS.is_there(connection):
            return
        some = NearGroups(connection, has_names=False)
        for group in some.differences():
            for page in group.pages:
                self.groups[page.canon].append((group, page))
        for each in some.beginnings():
            self.beginnings[each.part.canon].append(each)
            self.beginnings[each.whole.canon].append(each)

    def of(self, file: ReportFile) -> List[NearFile]:
        """The pages that are almost equal to that of a file, or to its treated copy."""
        canon = file.canon or file.treated_canon
        if canon is None:
            return []
        found = [NearFile(other.canon, _difference_text(group, page, other))
                 for group, page in self.groups.get(canon, ()) for other in _others(group, page)]
        return found + [_beginning_of(each, canon) for each in self.beginnings.get(canon, ())[:MOST_NEAR]]


def _others(group: Difference, page: ListedPage) -> List[ListedPage]:
    return [other for other in group.pages[:MOST_NEAR + 1] if other is not page][:MOST_NEAR]


def _difference_text(group: Difference, page: ListedPage, other: ListedPage) -> str:
    if group.what != WORDS:
        return f"differs in {group.what}"
    pair = difference(WORDS, (page, other))
    here, there = words_of(pair, 0), words_of(pair, 1)
    return f"differs in words: {here} here, {there} there" if here != there else f"differs in words: {here}"


def _beginning_of(each: Beginning, canon: bytes) -> NearFile:
    last = LAST[each.last_fits]
    if each.part.canon == canon:
        return NearFile(each.whole.canon, f"this page is a beginning of it, {last}")
    return NearFile(each.part.canon, f"it is a beginning of this page, {last}")
