"""What a box keeps of each page, in a SQLite file that is written before the store; and which worker asks about it."""
import json
import os
import sqlite3
import zlib
from typing import Iterable, List, NamedTuple, Optional, Sequence, Set, Tuple

from naplps.answers import Nonsense, read_line
from naplps.names import Members

from .. import messages
from ..collection.folders import reason
from ..collection.store import StoreFailed, address
from ..collection.store_files import foreign
from ..collection.tables import CanonValues
from ..console import NotWritten
from ..file_kinds import DISKS
from ..new_files import new_part

MADE = "CREATE TABLE claims(own BLOB PRIMARY KEY) WITHOUT ROWID"
CLAIM = "INSERT OR IGNORE INTO claims(own) VALUES(?)"
# It is needed while the workers are there, and no longer.
FAST = "PRAGMA synchronous = OFF; PRAGMA journal_mode = MEMORY;"


class Claims:
    """A file that all workers of a run write. Where it can't be written, each asks about what it meets."""

    def __init__(self, path: str, more: str = "") -> None:
        """Opens the file, which has to be there. Raises sqlite3.Error."""
        self.connection = sqlite3.connect(address(path, "rw"), uri=True, timeout=60, isolation_level=None)
        self.connection.executescript(FAST + more)

    def taken(self, hashes: List[bytes]) -> Set[bytes]:
        """Those of the hashes that nobody claimed before."""
        ask = self.connection.execute
        try:
            ask("BEGIN IMMEDIATE")
            claimed = {own for own in hashes if ask(CLAIM, (own,)).rowcount}
            ask("COMMIT")
            return claimed
        except sqlite3.Error:
            return set(hashes)


def made_claims(folder: str) -> str:
    """The path of such a file, made in a folder under a name that nothing has. Raises NotWritten or sqlite3.Error."""
    try:
        number, path = new_part(folder)
    except OSError as error:
        raise NotWritten(folder, reason(error)) from None
    os.close(number)
    Claims(path, MADE).connection.close()
    return path


# "npbx", by which the file is known again, and its form.
APPLICATION, FORM = 0x6E706278, 1
COLUMNS = ("data", "places", "canon", "cure", "copy", "copied", "parts", "carved", "cut")
# The pages by their hashes; and the hashes of what was made at a path in the folder, and of what will be.
TABLES = (f"CREATE TABLE pages(own BLOB PRIMARY KEY, {', '.join(COLUMNS)})",
          "CREATE TABLE made(path BLOB, hash BLOB, PRIMARY KEY(path, hash)) WITHOUT ROWID")
WRITE = f"INSERT OR REPLACE INTO pages(own, {', '.join(COLUMNS)}) VALUES(?{', ?' * len(COLUMNS)})"
READ = f"SELECT {', '.join(COLUMNS)} FROM pages WHERE own = ?"
# Pages are small, and there are many.
LEVEL = 1
# No page and no answer that is kept is longer.
MOST_LENGTH = 64 << 20


class KeptPart(NamedTuple):
    """A part of a file: where it is, what was found of it, and the line of the answer to it, or why there is none."""

    offset: int
    length: int
    # (of a capture how many bytes stand before it, of a carved page where it ends at least and begins at most)
    more: Tuple[int, int]
    cut_at: str
    line: str
    why: str


class KeptPage(NamedTuple):
    """What is kept of a page.

    Its first bytes, and of a capture all; the body of `places`, its canonical stream; the note on its treated copy,
    that copy and the body of `places` for it; the parts of a capture; the pages that were carved out of it, and their
    bytes one after another.
    """

    data: Optional[bytes] = None
    places: Optional[bytes] = None
    canon: Optional[bytes] = None
    cure: Optional[Members] = None
    copy: Optional[bytes] = None
    copied: Optional[bytes] = None
    parts: Optional[List[KeptPart]] = None
    carved: Optional[List[KeptPart]] = None
    cut: Optional[bytes] = None

    def is_searched(self, looks_like: Optional[str]) -> bool:
        """Whether pages are looked for inside a refused file: in what isn't cut into parts and has no readable copy,
        and in each disk."""
        return looks_like in DISKS or not (self.parts or self.copy)

    @property
    def values(self) -> CanonValues:
        """This as a worker sends it, and as it stands in the file."""
        return (_packed(self.data), _packed(self.places), _packed(self.canon), _as_json(self.cure), _packed(self.copy),
                _packed(self.copied), _as_json(self.parts), _as_json(self.carved), _packed(self.cut))


def _packed(data: Optional[bytes]) -> Optional[bytes]:
    return None if data is None else zlib.compress(data, LEVEL)


def _as_json(value: object) -> Optional[str]:
    return None if value is None else json.dumps(value)


def _unpacked(data: Optional[bytes]) -> Optional[bytes]:
    if data is None:
        return None
    unpacker = zlib.decompressobj()
    made = unpacker.decompress(data, MOST_LENGTH)
    if not unpacker.eof:
        raise ValueError
    return made


def _parts(text: Optional[str]) -> Optional[List[KeptPart]]:
    return None if text is None else [_part(*row) for row in json.loads(text)]


def _part(offset: object, length: object, more: object, cut_at: object, line: object, why: object) -> KeptPart:
    """A part, of values that may be any of JSON. Raises ValueError or Nonsense where they aren't those of a part."""
    before, after = more if isinstance(more, list) else ()
    numbers = [number for number in (offset, length, before, after) if type(number) is int and number >= 0]
    words = [word for word in (cut_at, line, why) if isinstance(word, str)]
    if len(numbers) < 4 or len(words) < 3:
        raise ValueError
    part = KeptPart(numbers[0], numbers[1], (numbers[2], numbers[3]), *words)
    if part.line:
        read_line(part.line.encode("ascii"), part.length)
    return part


def _cure(text: Optional[str]) -> Optional[Members]:
    cure = None if text is None else json.loads(text)
    if cure is not None and (not isinstance(cure, dict) or type(cure.get("entries")) is not int):
        raise ValueError
    return cure


def _require_own(path: str, is_new: bool) -> None:
    """Raises StoreFailed where SQLite would act on a foreign file beside that at this path.

    Where nothing is there and it may be made, an empty file is, which its owner alone can read.
    """
    try:
        why = foreign(path)
        if is_new and not why and not os.path.lexists(path):
            os.close(os.open(path, os.O_RDWR | os.O_CREAT | os.O_EXCL | os.O_NOFOLLOW | os.O_CLOEXEC, 0o600))
    except OSError as error:
        why = reason(error)
    if why:
        raise StoreFailed(path, why)


class KeptPages:
    """The file, to be read; or to be written, as what stands beside a scan."""

    module = "naplps_pages.box.box_worker"

    def __init__(self, path: str, carves: bool = False, is_new: bool = False) -> None:
        """Opens it, and makes it where it isn't there and may be made. Raises StoreFailed or sqlite3.Error."""
        self.path = path
        self.first: Tuple[object, ...] = (carves, "")
        self.anew: Tuple[object, ...] = (carves, "")
        self.rows: List[Tuple[bytes, CanonValues]] = []
        _require_own(path, is_new)
        self.connection = sqlite3.connect(address(path, "rw"), uri=True, timeout=60, isolation_level=None)
        try:
            self._look(is_new)
        except sqlite3.DatabaseError as error:
            self.connection.close()
            if isinstance(error, sqlite3.OperationalError):
                raise
            raise StoreFailed(path, messages.NO_PAGES_OF_BOX) from None
        except BaseException:
            self.connection.close()
            raise

    def _look(self, is_new: bool) -> None:
        ask = self.connection.execute
        ask("PRAGMA trusted_schema = OFF")
        if is_new and not ask("SELECT 1 FROM sqlite_master LIMIT 1").fetchone():
            self.connection.executescript(f"BEGIN IMMEDIATE; PRAGMA application_id = {APPLICATION}; "
                                          f"PRAGMA user_version = {FORM}; {'; '.join(TABLES)}; COMMIT;")
        known = [ask(f"PRAGMA {name}").fetchone()[0] for name in ("application_id", "user_version")]
        some = [sql for sql, in ask("SELECT sql FROM sqlite_master WHERE sql IS NOT NULL")]
        if known != [APPLICATION, FORM] or some != [*TABLES]:
            raise StoreFailed(self.path, messages.NO_PAGES_OF_BOX)

    def share(self, claims: str) -> None:
        """Gives the workers of the scan the file in which each claims pages."""
        self.first = (self.first[0], claims)

    def take(self, values: Sequence[Tuple[bytes, CanonValues]]) -> None:
        """Takes what workers found, by the hashes of pages."""
        self.rows += values

    def write(self) -> None:
        """Writes what was taken, and waits until it is on the disk."""
        self.put(self.rows)
        self.rows = []

    def put(self, rows: Iterable[Tuple[bytes, CanonValues]]) -> None:
        """Writes pages by their hashes."""
        some = [(own, *values) for own, values in rows]
        if some:
            self.connection.execute("BEGIN IMMEDIATE")
            self.connection.executemany(WRITE, some)
            self.connection.execute("COMMIT")

    def of(self, own: bytes) -> Optional[KeptPage]:
        """What is kept of the page with this hash. Raises StoreFailed where that isn't what was written."""
        row = self.connection.execute(READ, (own,)).fetchone()
        if row is None:
            return None
        data, places, canon, cure, copy, copied, parts, carved, cut = row
        try:
            return KeptPage(_unpacked(data), _unpacked(places), _unpacked(canon),
                            _cure(cure), _unpacked(copy), _unpacked(copied),
                            _parts(parts), _parts(carved), _unpacked(cut))
        except (ValueError, TypeError, Nonsense, zlib.error, RecursionError):
            raise StoreFailed(self.path, messages.PAGE_OF_BOX_UNREADABLE.format(sha256=own.hex())) from None

    def close(self) -> None:
        """Closes it."""
        self.connection.close()
