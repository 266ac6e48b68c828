"""Pages of a store that are almost equal, by keys of their lists, which are made where they lack."""
import sqlite3
import sys
from argparse import Namespace
from itertools import groupby
from operator import attrgetter
from typing import Dict, Iterator, List, NamedTuple, Optional, Sequence

from naplps.treating.treatments import graded

from .. import messages
from ..console import FAILED, Output, tell
from ..near_keys import FORM, PREFIX
from ..nearness import (
    COLOURS, MOST_ENTRIES, PLACES, WORDS, Beginning, Difference, ListedPage, PageName, beginnings, difference,
    numbers_of, show,
)
from .canon_filling import filling
from .folders import Place
from .kept import NEAR_KEYS, WITH_COPIES, ListKey, ListWords, PrefixKeys
from .tables import Hash, Name, Path, Text, checked

FIND = ("DROP TABLE IF EXISTS temp.named", "DROP TABLE IF EXISTS temp.compared",
        f"CREATE TEMP TABLE named AS {WITH_COPIES}", "CREATE INDEX temp.named_by_canon ON named(canon)",
        f"""CREATE TEMP TABLE compared AS SELECT rowid AS row, canon, start, words, colours, places FROM near_keys
        WHERE form = {FORM} AND canon IN (SELECT canon FROM named)""")
GROUPED = """SELECT c.{0}, c.canon, {1} FROM compared c{2} WHERE c.{0} IN (
    SELECT {0} FROM compared GROUP BY {0} HAVING count(*) > 1) ORDER BY c.{0}, c.canon"""
WITH_KEYS = " CROSS JOIN near_keys k ON k.rowid = c.row"
# What is known of a group's pages beside the canonical hash: the words, or the hashes of first entries.
SAID = {WORDS: ("k.said", WITH_KEYS), COLOURS: ("''", ""), PLACES: ("''", "")}
NAMES = """SELECT d.path, n.name, n.treatments FROM named n CROSS JOIN folders d ON d.id = n.folder WHERE n.canon = ?
    ORDER BY d.path, n.name"""


class KeyedList(NamedTuple):
    """A list by a key, its canonical hash, and the words that it has, or none."""

    key: ListKey
    canon: Hash
    said: ListWords


class BegunList(NamedTuple):
    """A list by the key of its beginning, its canonical hash, and the keys of all its beginnings."""

    start: PrefixKeys
    canon: Hash
    prefixes: PrefixKeys


class DrawnFile(NamedTuple):
    """A file that draws a list, and by which treatments."""

    folder: Path
    name: Name
    treatments: Optional[Text]


class NearGroups:
    """Finds them in a store whose keys are known. `is_whole` says whether all were looked at as beginnings.

    Where names aren't wanted the pages have their canonical hashes alone, and are in the order of these.
    """

    def __init__(self, connection: sqlite3.Connection, has_names: bool = True) -> None:
        self.connection, self.has_names, self.is_whole = connection, has_names, True
        self.names: Dict[bytes, List[PageName]] = {}
        for words in FIND:
            connection.execute(words)

    def differences(self) -> Iterator[Difference]:
        """Pages that differ in words, in colours or in places alone, in the order of their names."""
        for what, (said, more) in SAID.items():
            rows = checked(self.connection.execute(GROUPED.format(what, said, more)), KeyedList)
            found = [self._in_order([self._page(row.canon, row.said) for row in group])
                     for _, group in groupby(rows, attrgetter("key"))]
            yield from (difference(what, group) for group in sorted(found, key=lambda group: group[0].names))

    def beginnings(self) -> Iterator[Beginning]:
        """Of each page the longest ones that are its beginning, in the order of names."""
        found: List[Beginning] = []
        rows = checked(self.connection.execute(GROUPED.format("start", "k.prefixes", WITH_KEYS)), BegunList)
        entries = 0
        for _, group in groupby(rows, attrgetter("start")):
            pages: List[ListedPage] = []
            for row in group:
                entries += len(row.prefixes) // PREFIX
                if entries > MOST_ENTRIES:
                    self.is_whole = False
                    break
                pages.append(ListedPage([], "", numbers_of(row.prefixes), row.canon))
            found += beginnings(pages)
            if not self.is_whole:
                break
        for each in found:
            for page in (each.part, each.whole):
                page.names = self._names(page.canon)
        yield from sorted(found, key=lambda each: (each.part.names, each.whole.names))

    def _page(self, canon: bytes, said: str) -> ListedPage:
        return ListedPage(self._names(canon), said, canon=canon)

    def _in_order(self, pages: Sequence[ListedPage]) -> List[ListedPage]:
        return sorted(pages, key=lambda page: page.names)

    def _names(self, canon: bytes) -> List[PageName]:
        """The files that draw this."""
        if not self.has_names:
            return []
        names = self.names.get(canon)
        if names is None:
            rows = checked(self.connection.execute(NAMES, (canon,)), DrawnFile)
            names = self.names[canon] = [
                PageName(Place(row.folder, row.name).path, graded(row.treatments) if row.treatments else "")
                for row in rows]
        return names


def near(given: Namespace, tool: str) -> int:
    """Prints what is near in a store; the status. Raises StoreFailed or sqlite3.Error."""
    it = filling(NEAR_KEYS, given, tool).filled()
    if it is None:
        return FAILED
    _print(it.connection, given.form == "json")
    return it.status


def _print(connection: sqlite3.Connection, as_objects: bool) -> None:
    output = Output(sys.stdout.buffer)
    found = NearGroups(connection)
    for each in found.differences():
        show(output, each, as_objects)
    for one in found.beginnings():
        show(output, one, as_objects)
    output.flush()
    if not found.is_whole:
        tell(messages.NOT_ALL_BEGINNINGS)
