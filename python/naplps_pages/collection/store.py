"""The store of a collection: an SQLite file, written by one process and read by many; and commands that run on it."""
import os
import sqlite3
import stat
import time
from typing import Callable, Dict, Iterator, Optional, Set, Type

from naplps.ending import ENDING
from naplps.faults import NoProgram
from naplps.names import printable, shown
from naplps.version import VERSION

from .. import TOOL, messages
from ..console import FAILED, NotWritten, tell
from ..unexpected import Unexpected, failure_message, status_of
from . import tables
from .query_bounds import bounded, require_ends, statistics_of, watch
from .store_files import APPLICATION, LOG, MAGIC, close_to_others, foreign, is_held, place
from .tables import Row, checked

# A reader may hold a store that has only a rollback journal so long, in seconds.
PATIENCE = 60
PLAIN = frozenset(b"/-._~0123456789ABCDEFGHIJKLMNOPQRSTUVWXYZabcdefghijklmnopqrstuvwxyz")
# What is held of the file, in KiB; and how long its log becomes, in pages.
CACHE, LOG_PAGES = 32 << 10, 8000
# What SQLite says of a file that is no database.
NO_DATABASE = "file is not a database"
# The modes of a new file that its owner alone can read, and of one that others can, as far as the mask allows that.
PRIVATE, OPEN = 0o600, 0o644
# How many seconds one wait for readers takes.
TURN = 0.1


class StoreFailed(Exception):
    """The store can't be used, with the reason."""

    def __init__(self, path: str, reason: str) -> None:
        super().__init__(f"{shown(path)}: {printable(reason)}")


def _connected(path: str, mode: str) -> sqlite3.Connection:
    connection = sqlite3.connect(address(path, mode), uri=True, timeout=PATIENCE, isolation_level=None)
    watch(connection)
    connection.execute("PRAGMA trusted_schema = OFF")
    return connection


def address(path: str, mode: str) -> str:
    """The address of a file for SQLite, where a byte that could say something there stands by its number."""
    name = "".join(chr(byte) if byte in PLAIN else f"%{byte:02X}" for byte in os.fsencode(os.path.abspath(path)))
    return f"file:{name}?mode={mode}"


def reader(path: str) -> sqlite3.Connection:
    """A connection that only reads. What a scan that was killed left half written, SQLite takes back, if it may."""
    return _connected(path, "rw")


def open_to_read(path: str) -> sqlite3.Connection:
    """The store, to be read. Raises StoreFailed or sqlite3.Error.

    What a scan that was killed left to be done is done now. Where that can't be, as while a first scan is at work,
    there may be no indices: then the queries go to copies that have some.
    """
    _look(path)
    connection = _checked(path, "rw")
    connection.execute(f"PRAGMA cache_size = {-CACHE}")
    if not is_held(path):
        _complete(connection)
    if not show_present(connection):
        connection.execute("CREATE TEMP TABLE found AS SELECT * FROM pages")
        connection.execute("DROP VIEW IF EXISTS temp.pages")
        connection.execute("ALTER TABLE temp.found RENAME TO pages")
        for column in ("id", "canon"):
            connection.execute(f"CREATE INDEX temp.pages_by_{column} ON pages({column})")
    return connection


def open_unchanged(path: str) -> sqlite3.Connection:
    """The store, to be read while its file stays as it is. Raises StoreFailed or sqlite3.Error."""
    _look(path)
    return _checked(path, "ro")


def attach(connection: sqlite3.Connection, path: str, name: str) -> None:
    """Attaches another store to a connection, by this name and only to be read."""
    connection.execute(f"ATTACH ? AS {name}", (address(path, "ro"),))


def show_present(connection: sqlite3.Connection) -> bool:
    """Gives the files that are there as `present`, in which those of a page are found at once; whether that is cheap.

    A member of a pack is there with where it begins, and another file with its length, as `Place` has them. Where there
    are no indices, `present` is a copy that has one.
    """
    words = f"present AS SELECT folder, name, page, {tables.AT} AS at FROM files f WHERE state = {tables.READ}"
    if connection.execute("SELECT 1 FROM sqlite_master WHERE type = 'index' AND name = 'files_by_page'").fetchone():
        connection.execute("CREATE TEMP VIEW " + words)
        return True
    connection.execute("CREATE TEMP TABLE " + words)
    connection.execute("CREATE INDEX temp.present_by_page ON present(page)")
    return False


def open_to_write(path: str, is_private: bool = True) -> sqlite3.Connection:
    """The store, to be written. Where there is none it is made, so that its owner alone can read it if it is private.
    Raises StoreFailed or sqlite3.Error.
    """
    if os.path.lexists(path):
        _look(path, may_be_empty=True)
    else:
        _look_beside(path)
        _make_file(path, PRIVATE if is_private else OPEN)
    connection = _checked(path, "rwc")
    try:
        connection.execute(f"PRAGMA cache_size = {-CACHE}")
        _renew(path, connection)
        return connection
    except BaseException:
        connection.close()
        raise


def _make_file(path: str, mode: int) -> None:
    """Makes the file of a new store, which has its mode from its first instant on. Raises StoreFailed."""
    try:
        os.close(os.open(path, os.O_RDWR | os.O_CREAT | os.O_EXCL | os.O_CLOEXEC, mode))
    except OSError as error:
        raise StoreFailed(path, error.strerror or str(error)) from None


def _look(path: str, may_be_empty: bool = False) -> None:
    """Raises StoreFailed where there is no such file, with the system's reason; where it is no database, which SQLite
    would make of one byte too; or where a foreign file is beside it. An empty file of another user isn't taken, who may
    have it open and read what is written there."""
    try:
        status = os.stat(path)
        if not stat.S_ISREG(status.st_mode):
            is_folder = stat.S_ISDIR(status.st_mode)
            raise StoreFailed(path, messages.FOLDER_NO_STORE if is_folder else messages.NOT_A_FILE)
        if may_be_empty and not status.st_size and status.st_uid not in (0, os.geteuid()):
            raise StoreFailed(path, messages.EMPTY_OF_OTHER)
        with open(os.open(path, os.O_RDONLY | os.O_NONBLOCK | os.O_CLOEXEC), "rb") as file:
            begins = file.read(len(MAGIC))
    except OSError as error:
        raise StoreFailed(path, error.strerror or str(error)) from None
    if begins != MAGIC and (begins or not may_be_empty):
        raise StoreFailed(path, messages.NOT_A_STORE)
    _look_beside(path)


def _look_beside(path: str) -> None:
    """Raises StoreFailed where SQLite would act on what stands beside the file and isn't its own."""
    try:
        why = foreign(path)
    except OSError as error:
        why = error.strerror or str(error)
    if why:
        raise StoreFailed(path, why)


def _is_empty(connection: sqlite3.Connection) -> bool:
    return not connection.execute("SELECT 1 FROM sqlite_master LIMIT 1").fetchone()


def _make(connection: sqlite3.Connection) -> None:
    """Makes the tables, all or none."""
    some = {"schema": tables.SCHEMA, "hash": tables.HASH, "tool": f"{TOOL} {VERSION}"}
    values = ", ".join(f"('{key}', '{value}')" for key, value in some.items())
    connection.executescript(f"BEGIN IMMEDIATE; PRAGMA application_id = {APPLICATION}; {tables.created()} "
                             f"{tables.listing()}; INSERT INTO meta VALUES {values}; COMMIT;")


def _renew(path: str, connection: sqlite3.Connection) -> None:
    """Makes a store of the schema before one of this schema, at once. Raises StoreFailed.

    What that has more of is then unknown of each page, and the next scan asks about them again.
    """
    if schema_of(connection) == tables.SCHEMA:
        return
    connection.executescript(
        f"BEGIN IMMEDIATE; DROP VIEW IF EXISTS listing; {tables.renewal()} {tables.listing()}; COMMIT;")


def _checked(path: str, mode: str) -> sqlite3.Connection:
    """A connection to a file that is a store; an empty one may become one. Raises StoreFailed or sqlite3.Error."""
    connection = _connected(path, mode)
    try:
        with bounded(connection, path):
            if mode == "rwc" and _is_empty(connection):
                _make(connection)
            schema = _check(path, connection)
            why = statistics_of(path, connection)
            if why:
                raise StoreFailed(path, why)
            own = _check_tables(path, connection, schema)
        require_ends(path, connection, own)
        if mode != "rwc" and schema == tables.EARLIER:
            _show_as_now(connection)
        return connection
    except UnicodeDecodeError:  # (SQLite says what is wrong with a schema in the schema's own words)
        connection.close()
        raise StoreFailed(path, messages.LACKS_READABLE_TABLE) from None
    except sqlite3.DatabaseError as error:
        connection.close()
        if str(error) == NO_DATABASE:
            raise StoreFailed(path, messages.NOT_A_STORE) from None
        raise
    except BaseException:
        connection.close()
        raise


def _show_as_now(connection: sqlite3.Connection) -> None:
    """Lets the tables of the schema before be read as those of this one."""
    for name, words in tables.as_now():
        connection.execute(f"CREATE TEMP VIEW {name} AS {words}")


def _check_tables(path: str, connection: sqlite3.Connection, schema: int) -> Dict[str, str]:
    """The store's own tables that have rows, with their words. Raises StoreFailed where tables, indices or views aren't
    those of a store.

    Other plain tables, and indices of these, are nobody's matter. But other views, triggers and virtual tables, and
    other indices of the store's own tables, would act where it is read or written. An index of words is there as a
    whole, or not at all; a table of values by canonical streams is there or not.
    """
    expected = tables.objects(schema)
    found = set()
    rows = connection.execute("SELECT type, name, tbl_name, sql FROM main.sqlite_master").fetchall()
    tables_of_own = {name for kind, name in expected if kind == "table"}
    optional = _optional({table for _, _, table, _ in rows} - tables_of_own - {"listing"})
    tables_of_own.update(optional)
    for kind, name, table, words in rows:
        words_of_own = expected.get((kind, name)) or optional.get(name)
        if words_of_own is None and not _is_apart(kind, table, words, tables_of_own):
            raise StoreFailed(path, messages.FOREIGN_TABLE.format(kind=kind, name=name))
        if words_of_own is not None and words != words_of_own:
            raise StoreFailed(path, messages.OTHER_TABLE.format(kind=kind, name=name))
        found.add((kind, name))
    has_words = any(("table", name) in found for name in tables.TEXT_INDEX)
    for name in [*(name for kind, name in expected if kind == "table"), *(tables.TEXT_INDEX if has_words else ())]:
        if ("table", name) not in found:
            raise StoreFailed(path, messages.LACKS_TABLE.format(table=name))
    return {name: words for kind, name, _, words in rows
            if kind == "table" and name in tables_of_own and name != tables.INDEX}


def _optional(further: Set[str]) -> Dict[str, str]:
    """The words of the tables that a store needn't have, as far as its further ones may be of these."""
    if further <= set(tables.TEXT_INDEX):
        return tables.TEXT_INDEX
    from . import kept  # (what few stores have, the commands on others don't wait for)
    return {**tables.TEXT_INDEX, **kept.OWN}


def _is_apart(kind: str, table: str, words: Optional[str], own: Set[str]) -> bool:
    """Whether what has these words is a plain table, or an index of one, that has nothing to do with a store.

    SQLite makes what the words say, and not in each version what the kind is. An index without words is that of a key.
    """
    if words is None:
        return kind == "index"
    begins = {"table": ("CREATE TABLE ",), "index": ("CREATE INDEX ", "CREATE UNIQUE INDEX ")}.get(kind, ())
    return words.startswith(begins) and (kind == "table" or table.lower() not in own)


def schema_of(connection: sqlite3.Connection) -> int:
    """The schema of a store that is one."""
    value, = connection.execute("SELECT value FROM main.meta WHERE key = 'schema'").fetchone()
    return int(value)


def _check(path: str, connection: sqlite3.Connection) -> int:
    """The schema of the file. Raises StoreFailed where it isn't a store that this tool knows."""
    if connection.execute("PRAGMA application_id").fetchone() != (APPLICATION,):
        raise StoreFailed(path, messages.OTHER_DATABASE)
    schema = connection.execute("SELECT value FROM meta WHERE key = 'schema'").fetchone()
    if schema is None or str(schema[0]) not in map(str, (tables.EARLIER, tables.SCHEMA)):
        raise StoreFailed(path, messages.OTHER_SCHEMA.format(
            schema=schema[0] if schema else "unknown", earlier=tables.EARLIER, known=tables.SCHEMA))
    made = connection.execute("SELECT value FROM meta WHERE key = 'hash'").fetchone()
    if made != (tables.HASH,):
        raise StoreFailed(path, messages.OTHER_HASHES.format(hash=made[0] if made else "nothing", known=tables.HASH))
    return int(schema[0])


def kept(connection: sqlite3.Connection, words: str, row: Type[Row], **named: str) -> Iterator[Row]:
    """The rows of a query, which are checked, and taken aside first, so that a scan needn't wait until then.

    Its parameters are known by their names.
    """
    connection.execute("CREATE TEMP TABLE kept AS " + words, named)
    return checked(connection.execute("SELECT * FROM kept ORDER BY rowid"), row)


def path_of(connection: sqlite3.Connection) -> str:
    """The path of the file, which may have any bytes."""
    before, connection.text_factory = connection.text_factory, bytes
    try:
        return os.fsdecode(connection.execute("PRAGMA database_list").fetchone()[2])
    finally:
        connection.text_factory = before


def has_texts(connection: sqlite3.Connection) -> bool:
    """Whether a store has words of pages, which are also beside the keys of those that are almost equal."""
    from .kept import NEAR_KEYS
    some = ["texts", *[NEAR_KEYS.name] * NEAR_KEYS.is_there(connection)]
    return any(connection.execute(f"SELECT 1 FROM main.{name} LIMIT 1").fetchone() for name in some)


def keep_private(connection: sqlite3.Connection) -> None:
    """Lets only its owner read a store that gets its first texts, as they may be those of pages that others can't read.
    Raises OSError.
    """
    if not has_texts(connection):
        close_to_others(path_of(connection))


def keep_log(connection: sqlite3.Connection) -> bool:
    """Lets the store be read while it is written, by a log beside it; whether its file system can do that."""
    mode = connection.execute("PRAGMA journal_mode = WAL").fetchone()[0]
    connection.execute(f"PRAGMA wal_autocheckpoint = {LOG_PAGES}")
    connection.execute("PRAGMA synchronous = FULL")
    return bool(mode == "wal")


def checkpoint(connection: sqlite3.Connection, seconds: float = 0, stops: Callable[[], bool] = lambda: False) -> bool:
    """Makes the store one file again, that can be copied and be read where nothing can be written.

    So long is waited for who reads it, unless it is to stop. False where he hinders that, so that rows stay in its log.
    """
    connection.execute(f"PRAGMA busy_timeout = {int(TURN * 1000)}")
    end = time.monotonic() + seconds
    try:
        while not _is_moved(connection):
            if stops() or time.monotonic() >= end:
                return False
        connection.execute("PRAGMA journal_mode = DELETE")
    except sqlite3.OperationalError:
        pass  # somebody has it open, and what ends last takes the log away; or it can't be written
    return True


def _complete(connection: sqlite3.Connection) -> None:
    """Does what the last scan couldn't, since the store was read as it ended, or it was killed; or the next will."""
    try:
        connection.execute(f"PRAGMA busy_timeout = {int(TURN * 1000)}")
        if connection.execute("PRAGMA journal_mode").fetchone() == ("wal",):
            checkpoint(connection)
        found = {name for name, in connection.execute("SELECT name FROM main.sqlite_master WHERE type = 'index'")}
        if not found.issuperset(tables.INDEXED):
            connection.executescript(f"BEGIN IMMEDIATE; {tables.INDICES} COMMIT;")
    except sqlite3.Error:  # as where nothing can be written
        if connection.in_transaction:
            connection.execute("ROLLBACK")
    connection.execute(f"PRAGMA busy_timeout = {PATIENCE * 1000}")


def _is_moved(connection: sqlite3.Connection) -> bool:
    """Moves the rows of the log into the store, if nobody reads them there; whether none is left."""
    busy, _, _ = connection.execute("PRAGMA wal_checkpoint(TRUNCATE)").fetchone()
    return not busy


def log_of(connection: sqlite3.Connection) -> int:
    """How many bytes of the store are in its log."""
    path = path_of(connection)
    try:
        return os.lstat(place(path, LOG)).st_size
    except OSError:
        return 0


def run(named: str, work: Callable[[], int]) -> int:
    """Runs the work of a command on the store of this name; the status."""
    try:
        return work()
    except BrokenPipeError:
        raise
    except (NoProgram, NotWritten, StoreFailed) as error:
        ENDING.act()  # (in a query that it ends, SQLite makes another error of a signal)
        tell(str(error))
    except Unexpected as error:
        ENDING.act()
        tell(str(error))
        return error.status
    except sqlite3.Error as error:
        ENDING.act()
        tell(f"{shown(named)}: {error}")
    except Exception as error:  # pylint: disable=broad-except
        ENDING.act()
        tell(f"{shown(named)}: {failure_message(error)}")
        return status_of(error)
    return FAILED
