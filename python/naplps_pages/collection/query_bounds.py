"""What lets each query on a store end: a signal stops it, the file has no statistics, and no table or index has more
rows than the file can hold.

SQLite believes what a file says. By statistics that lie it reads a whole table for each row of another; and where the
pages of a file lead to each other in a ring, or many to one, they are no tree, and a table has rows without an end.
"""
import os
import shlex
import sqlite3
from contextlib import contextmanager
from typing import Iterator, Mapping, Optional, Tuple

from naplps.ending import ENDING

from .. import messages
from . import tables
from .store_files import LOG, place

# The steps of SQLite between two looks whether a signal has come.
STEPS_BETWEEN = 100_000
# Each row takes so many bytes of a file at least. To look at a file takes so many steps for each of its bytes at most,
# and for a small one so many.
LEAST_ROW, STEPS_FOR_BYTE, STEPS_FOR_SMALL = 4, 4, 1_000_000
# The tables by which versions of SQLite choose indices.
STATISTICS = tuple(f"sqlite_stat{number}" for number in range(1, 5))


def watch(connection: sqlite3.Connection) -> None:
    """Lets a signal end each query of a connection, with sqlite3.OperationalError; ENDING has the signal then."""
    connection.set_progress_handler(ENDING.is_asked_for, STEPS_BETWEEN)


@contextmanager
def bounded(connection: sqlite3.Connection, path: str) -> Iterator[None]:
    """Bounds what SQLite does inside, as it reads the schema and statistics of a store for the first time. Raises
    NotAStore where that is more than the file can ask for."""
    connection.execute("PRAGMA application_id").fetchone()  # (what a killed scan left is taken back first)
    left = (STEPS_FOR_SMALL + STEPS_FOR_BYTE * length(path)) // STEPS_BETWEEN

    def is_over() -> bool:
        nonlocal left
        left -= 1
        return left < 0 or ENDING.is_asked_for()
    connection.set_progress_handler(is_over, STEPS_BETWEEN)
    try:
        yield
    except sqlite3.OperationalError:
        if left < 0:
            raise tables.NotAStore(messages.ENDLESS_SCHEMA) from None
        raise
    finally:
        watch(connection)


def length(path: str) -> int:
    """The number of bytes of a store, with those in its log."""
    size = os.stat(path).st_size
    try:
        return size + os.lstat(place(path, LOG)).st_size
    except OSError:
        return size


def statistics_of(path: str, connection: sqlite3.Connection) -> Optional[str]:
    """Why a store that has statistics isn't read, with the command that removes them; None where it has none.

    SQLite itself is asked, since it finds them whatever their letters in the schema are.
    """
    some = [name for name in STATISTICS if connection.execute(f"PRAGMA main.table_info({name})").fetchone()]
    drops = "; ".join(f"DROP TABLE {name}" for name in some)
    return messages.HAS_STATISTICS.format(command=shlex.join(["sqlite3", path, drops])) if some else None


def require_ends(path: str, connection: sqlite3.Connection, words: Mapping[str, str]) -> None:
    """Looks at each table of a store, by the names and words of these, and at its indices: none has more rows than the
    file can hold. Raises NotAStore, or sqlite3.Error where one can't be read."""
    for table, made in words.items():
        try:
            for name, way in _ways(connection, table, made):
                most = length(path) // LEAST_ROW  # (a scan may be at work)
                if connection.execute(f"SELECT 1 FROM main.{table} {way} LIMIT 1 OFFSET {most}").fetchone():
                    raise tables.NotAStore(messages.ENDLESS.format(kind="index" if name else "table",
                                                                   name=name or table))
        except sqlite3.DatabaseError as error:
            if table not in tables.SHADOWS or isinstance(error, (tables.NotAStore, sqlite3.OperationalError)):
                raise
            # (where the index of words is damaged, its own commands report that)


def _ways(connection: sqlite3.Connection, table: str, words: str) -> Iterator[Tuple[str, str]]:
    """The names of the indices of a table, and none for the table itself; and how a query goes through each. Raises
    NotAStore where there is another index than those of a store and of keys."""
    yield "", "NOT INDEXED"
    for _, name, _, origin, is_partial, *_ in connection.execute(f"PRAGMA main.index_list({table})").fetchall():
        if name not in (tables.INDEXED if is_partial else [f"sqlite_autoindex_{table}_1"]):
            raise tables.NotAStore(messages.FOREIGN_TABLE.format(kind="index", name=name))
        if origin != "pk" or not words.endswith("WITHOUT ROWID"):  # (else it is the table itself)
            where = tables.INDEXED[name].partition(" WHERE ")[2] if is_partial else "true"
            yield name, f"INDEXED BY {name} WHERE {where}"
