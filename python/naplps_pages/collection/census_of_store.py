"""The census of a store: the codes for which its pages are refused, as the store has them, and what else stops them.

How many pages are refused for each code is exact. What follows is read again from a file of each refused page.
"""
import sqlite3
import sys
from collections import Counter
from typing import Iterator, NamedTuple, Optional, Tuple

from naplps.answers import Refusal
from naplps.names import shown

from ..codes import EIGHTH_BIT, stops
from ..console import CHANGED, COMPLETE
from .census import COLUMNS, Census, Row, show
from .file_reader import Otherwise, read
from .folders import Place
from .printing import Printer
from .progress import Progress
from .store import kept, open_to_read
from .tables import Count, Hash, Name, PageState, Path, RefusalNumber, Text, checked

# The greatest number of refused pages that are read on.
MAX_READ = 100_000
STATES = "SELECT p.state, count(*) FROM pages p WHERE EXISTS(SELECT 1 FROM present f WHERE f.page = p.id) GROUP BY 1"
# What a census calls the states of pages.
MEMBERS = ("accepted", "refused", "without")
# The name of what a page is refused for: an eighth bit, a code by its name, or the fault.
NAME = f"CASE p.number WHEN 1 THEN '{EIGHTH_BIT}' ELSE coalesce(p.left_out, p.stop, n.name, '') END"
FIRST = f"""SELECT {NAME}, count(*) FROM pages p LEFT JOIN faults n ON n.number = p.number
    WHERE p.number IS NOT NULL AND coalesce(p.looks_like, '') = ''
    AND EXISTS(SELECT 1 FROM present f WHERE f.page = p.id) GROUP BY 1"""
OTHERS = """SELECT count(*) FROM pages p WHERE p.number IS NOT NULL AND p.looks_like <> ''
    AND EXISTS(SELECT 1 FROM present f WHERE f.page = p.id)"""
PAGES = f"""SELECT p.own, p.number, coalesce(n.name, ''), p.left_out, p.place, {NAME}, d.path, f.name, f.at FROM pages p
    CROSS JOIN present f ON f.page = p.id CROSS JOIN folders d ON d.id = f.folder LEFT JOIN faults n
    ON n.number = p.number WHERE p.number IS NOT NULL AND coalesce(p.looks_like, '') = '' GROUP BY p.id
    ORDER BY d.path, f.name LIMIT {MAX_READ}"""


class StateCount(NamedTuple):
    """How many pages have a state."""

    state: PageState
    pages: Count


class StopCount(NamedTuple):
    """How many pages are refused for a code, by its name."""

    name: Text
    pages: Count


class RefusedPage(NamedTuple):
    """A refused page, what it is refused for, and a file that has it."""

    own: Hash
    number: RefusalNumber
    fault: Text
    left_out: Optional[Text]
    at: Count
    stop: Text
    folder: Path
    name: Name
    begins: Optional[Count]


def census(store: str, form: str) -> int:
    """Prints the census of a store in a form; the status, which tells of files that changed."""
    connection, status = open_to_read(store), COMPLETE
    found = exact(connection)
    progress = Progress(sys.stderr, lambda: min(found.refused, MAX_READ), what="refused pages")
    for path, why in read_on(connection, found, progress):
        progress.tell(f"{shown(path)}: {why}")
        status = CHANGED
    progress.clear()
    show(Printer(form, COLUMNS), found)
    return status


def exact(connection: sqlite3.Connection) -> Census:
    """What the store has: how many pages are accepted and refused, and for which codes they are refused."""
    found = Census()
    for count in checked(connection.execute(STATES), StateCount):
        setattr(found, MEMBERS[count.state], count.pages)
    for stop in checked(connection.execute(FIRST), StopCount):
        found.rows[stop.name] = Row(first=stop.pages)
    found.others, = connection.execute(OTHERS).fetchone()
    return found


def read_on(connection: sqlite3.Connection, found: Census, progress: Progress) -> Iterator[Tuple[str, str]]:
    """Reads on after the refusals of pages, bounded; tells of files that aren't as they were, and why."""
    seen: "Counter[str]" = Counter()
    for refused in progress.through(kept(connection, PAGES, RefusedPage)):
        place = Place(refused.folder, refused.name, refused.begins)
        try:
            page = read(place, refused.own)
        except Otherwise as otherwise:
            yield place.path, str(otherwise)
            continue
        try:
            names = stops(page.data, Refusal(refused.number, refused.fault, refused.left_out, refused.at))
        finally:
            page.close()
        seen[refused.stop] += 1
        found.in_part += names[-1:] == [""]
        found.note([refused.stop, *(each for each in names[1:] if each)])
    for name, row in found.rows.items():
        unread = row.first - seen[name]  # (each of these has one code at least, at its place)
        row.pages, row.times = row.pages + unread, row.times + unread
        found.in_part += unread
