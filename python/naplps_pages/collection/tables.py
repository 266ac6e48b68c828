"""The tables of a store, as docs/STORE.md describes them: what their values mean and may be, and their SQL.

The fields of a row say what its values are: `own: Hash`, or `Optional[Hash]` where there may be no value. Tables are
declared by the rows that a scan writes, and a row of a query alike. Values are checked where they come out, by
`checked`, since anybody may have made the file.
"""
import sqlite3
from functools import lru_cache
from typing import (
    Annotated, Any, Callable, Dict, Iterable, Iterator, NamedTuple, Optional, Sequence, Tuple, TypeVar, Union, get_args,
)

from naplps.names import printable

from .. import messages

HASH = "sha256"

# A whole number that is kept has 64 bits with the sign.
MAX_NUMBER = (1 << 63) - 1

# The states of a file, and of a page.
READ, UNREADABLE, VANISHED, TOO_LONG, NOT_A_FILE, CHANGED, GONE = range(7)
FILE_STATES = ("read", "unreadable", "vanished", "too long", "not a file", "changed", "gone")
ACCEPTED, REFUSED, NO_ANSWER = range(3)
PAGE_STATES = ("accepted", "refused", "no answer")
# The kinds of accepted pages, and of refused captures; the grades of treatments; and whose text is kept: a page's, that
# before its refusal, or that of its treated copy.
PAGE, TEXT, BLANK, CAPTURE = range(4)
KINDS = ("page", "text", "blank", "capture")
AROUND, WITHIN = range(2)
GRADES = ("around", "within")
WHOLE, BEFORE, TREATED = range(3)
SOURCES = ("page", "before the refusal", "treated copy")
# An answer p of which it is known whether its page is a capture, which it wasn't in the schema before; and one whose
# treatments c were tried, by the rules of now.
DESCRIBED = "p.holds IS NOT NULL"
TRIED = ("EXISTS(SELECT 1 FROM cures c WHERE c.page = p.id AND c.terms = p.terms "
         "AND (c.treatments IS NULL OR c.grade IS NOT NULL))")
# What an answer p needs to count under terms: treatments of a refused page, where these are asked for; and the text.
HAS_TEXT = "EXISTS(SELECT 1 FROM texts x WHERE x.page = p.id AND x.terms = p.terms)"
SETTLED = (f"p.terms = :terms AND p.state <> {NO_ANSWER} AND {DESCRIBED} "
           f"AND (p.state = {ACCEPTED} OR NOT :cures OR {TRIED}) AND (NOT :words OR {HAS_TEXT})")
# A row without a name is that of the pack itself. It tells of a file where the pack can't be read as a whole.
IS_FILE = f"(f.name <> x'' OR f.state NOT IN ({READ}, {GONE}))"


# Where a member of a pack, which has no time, begins; and how long another file is.
AT = "CASE WHEN f.mtime_ns IS NULL THEN f.inode ELSE f.size END"


def hashed(data: bytes) -> bytes:
    """The hash of these bytes."""
    import hashlib  # (which takes long, and commands that only look need no hash)
    return hashlib.sha256(data).digest()


Values = Tuple[Any, ...]
Row = TypeVar("Row")
MAX_REFUSAL, HASH_LENGTH = 99, 32
# Characters of a text, and bytes of a name or a path. (One row may be told as often as there are files.)
MAX_TEXT, MAX_PATH = 1 << 16, 1 << 17


class NotAStore(sqlite3.DatabaseError):
    """The file isn't a store, with what is wrong with it."""


class Kind(NamedTuple):
    """What a value is, its type in SQL, how Python knows it, and how SQL does beside its type."""

    name: str
    type: str
    fits: Callable[[Any], bool]
    rule: str

    def sql(self, column: str) -> str:
        """Whether a column has such a value, in SQL."""
        return f"typeof({column}) = '{self.type.lower()}'" + (f" AND {self.rule.format(column)}" if self.rule else "")


class Column(NamedTuple):
    """A column of a table or of a query: its name, what its values are, and whether there may be none; and of a table
    what it has in SQL beside its type, and the schema in which it came."""

    name: str
    kind: Kind
    may_lack: bool
    more: str = ""
    schema: int = 1

    @property
    def words(self) -> str:
        """The column in SQL."""
        must_be = " NOT NULL" if not self.may_lack and "PRIMARY KEY" not in self.more else ""
        return f"{self.name} {self.kind.type}{must_be}{' ' if self.more else ''}{self.more}"


class Sql(NamedTuple):
    """What the column of a field has in SQL beside its type; and the schema in which it came."""

    more: str = ""
    schema: int = 1


def _whole(least: int, most: int, name: str) -> Kind:
    """Whole numbers of a range."""
    return Kind(name, "INTEGER", lambda value: type(value) is int and least <= value <= most,
                f"{{0}} BETWEEN {least} AND {most}")


def text(name: str, most: int) -> Kind:
    """Texts of so many characters at most."""
    return Kind(name, "TEXT", lambda value: type(value) is str and len(value) <= most, f"length({{0}}) <= {most}")


NUMBER = _whole(-MAX_NUMBER - 1, MAX_NUMBER, "a number")
COUNT = _whole(0, MAX_NUMBER, "a number from 0")
REFUSAL = _whole(1, MAX_REFUSAL, "the number of a refusal")
FILE_STATE, PAGE_STATE = _whole(0, GONE, "the state of a file"), _whole(0, NO_ANSWER, "the state of a page")
PAGE_KIND, GRADE = _whole(0, CAPTURE, "the kind of a page"), _whole(0, WITHIN, "the grade of treatments")
SOURCE, FLAG = _whole(0, TREATED, "whose text it is"), _whole(0, 1, "a flag")
# A text of one line, and one of several.
LINE, LINES = text("a text", MAX_TEXT), text("a text", MAX_TEXT)
HASHES = Kind("a hash", "BLOB", lambda value: type(value) is bytes and len(value) == HASH_LENGTH,
              f"length({{0}}) = {HASH_LENGTH}")
NAME = Kind("a name", "BLOB", lambda value: type(value) is bytes and len(value) <= MAX_PATH and b"\0" not in value,
            f"length({{0}}) <= {MAX_PATH} AND instr({{0}}, x'00') = 0")
PATH = Kind("a path", "BLOB", lambda value: NAME.fits(value) and value.startswith(b"/"),
            NAME.rule + " AND substr({0}, 1, 1) = x'2F'")
# The same as types of fields.
Number = Annotated[int, NUMBER]
Count = Annotated[int, COUNT]
RefusalNumber = Annotated[int, REFUSAL]
FileState = Annotated[int, FILE_STATE]
PageState = Annotated[int, PAGE_STATE]
PageKind = Annotated[int, PAGE_KIND]
GradeNumber = Annotated[int, GRADE]
TextSource = Annotated[int, SOURCE]
Flag = Annotated[int, FLAG]
Text = Annotated[str, LINE]
TextLines = Annotated[str, LINES]
Hash = Annotated[bytes, HASHES]
Name = Annotated[bytes, NAME]
Path = Annotated[bytes, PATH]


@lru_cache(maxsize=None)
def columns(row: Any) -> Tuple[Column, ...]:
    """The columns of a row by its class: those of its fields of which the type says the kind."""
    return tuple(column for column in map(_column, *zip(*row.__annotations__.items())) if column)


def _column(name: str, field: Any) -> Optional[Column]:
    """The column of a field; none where its type is that of Python alone."""
    parts = list(getattr(field, "__metadata__", ()))
    inner = field.__origin__ if parts else field
    may_lack = type(None) in get_args(inner)
    parts += getattr(get_args(inner)[0], "__metadata__", ()) if may_lack else ()
    kind = next((part for part in parts if isinstance(part, Kind)), None)
    sql = next((part for part in parts if isinstance(part, Sql)), Sql())
    return Column(name, kind, may_lack, *sql) if kind else None


def checked(rows: Iterable[Values], row: Callable[..., Row]) -> Iterator[Row]:
    """The rows of a class, of values that are what its fields say. Texts are made fit to be printed. Raises NotAStore.
    """
    some = columns(row)
    tests = [(each.kind.fits, each.may_lack, each.kind.name) for each in some]
    texts = [(at, each) for at, each in enumerate(some) if each.kind is LINE or each.kind is LINES]
    for values in rows:
        for value, (fits, may_lack, name) in zip(values, tests):
            if (value is not None or not may_lack) and not fits(value):
                raise NotAStore(messages.WRONG_VALUE.format(value=_name_of(value), kind=name))
        made = list(values)
        for at, column in texts:
            if at < len(made) and made[at] is not None:  # (the last fields of a row may have their defaults)
                made[at] = _printable(made[at], column)
        yield row(*made)


def one(values: Optional[Values], row: Callable[..., Row]) -> Optional[Row]:
    """The same for the values of one row, if there are some."""
    return next(checked((values,), row)) if values is not None else None


def _printable(value: str, column: Column) -> str:
    """A text that is fit to be printed."""
    return "\n".join(map(printable, value.split("\n"))) if column.kind is LINES else printable(value)


def _name_of(value: Any) -> str:
    """What a value is, for people."""
    if isinstance(value, (int, float)):
        return f"the number {value}"
    if isinstance(value, str):
        return "a text" if len(value) <= MAX_TEXT else f"a text of {len(value)} characters"
    return "nothing" if value is None else f"{len(value)} bytes"


SCHEMA, EARLIER = 3, 2
# The words of a table stay as they are with their lines, since SQLite keeps them: no line is longer than this.
WIDTH = 118
# What a table has of a canonical stream, beside its hash and the form.
CanonValues = Tuple[Union[bytes, str, None], ...]


class Terms(NamedTuple):
    """On what an answer depends beside the bytes of the page: a row of `terms`."""

    version: Text
    program_hash: Hash
    form: Text
    budget: Count


class StoredRun(NamedTuple):
    """A scan: a row of `runs`."""

    began: Text
    ended: Optional[Text]
    tool: Text
    program: Name
    terms: Annotated[Count, Sql("REFERENCES terms")]
    files: Optional[Count] = None
    asked: Optional[Count] = None


class Root(NamedTuple):
    """A folder that was named: a row of `roots`."""

    run: Annotated[Count, Sql("REFERENCES runs")]
    path: Path
    why: Optional[Text] = None


class Folder(NamedTuple):
    """A folder or a pack: a row of `folders`."""

    path: Annotated[Path, Sql("UNIQUE")]
    state: FileState
    why: Optional[Text] = None


class Fault(NamedTuple):
    """A refusal: a row of `faults`."""

    number: Annotated[RefusalNumber, Sql("PRIMARY KEY")]
    name: Text


class File(NamedTuple):
    """What was found at a place: a row of `files`, with the hash of the page in place of its number."""

    folder: Annotated[Count, Sql("REFERENCES folders")]
    name: Name
    state: FileState
    why: Optional[Text] = None
    size: Optional[Count] = None
    mtime_ns: Optional[Number] = None
    ctime_ns: Optional[Number] = None
    inode: Optional[Count] = None
    own: Optional[bytes] = None


class Cured(NamedTuple):
    """What the treatments of a refused page came to: a row of `cures`; without treatments none helps.

    Of a treated copy it has the grade, the hash, and the hash and length of its canonical bytes.
    """

    treatments: Optional[Text] = None
    entries: Optional[Count] = None
    copy: Optional[Hash] = None
    why: Optional[Text] = None
    grade: Optional[GradeNumber] = None
    canon: Optional[Hash] = None
    canon_size: Optional[Count] = None


class PageText(NamedTuple):
    """The text of a page: a row of `texts`. Without a text it has the reason."""

    source: TextSource
    text: Optional[TextLines] = None
    first: Optional[Text] = None
    why: Optional[Text] = None


class Answered(NamedTuple):
    """What the program says of bytes: a row of `pages`, with the name of the fault, treatments and text beside it.

    An accepted page has its kind, and whether it is perhaps several pages; a refused one has what it looks like, which
    is nothing where that isn't known, and the code that stops it, where the fault alone doesn't say which. A capture
    has its kind, and how many pages it holds; other files hold 0. Values are those of a table by canonical streams.
    """

    own: Annotated[Hash, Sql("UNIQUE")]
    state: PageState
    number: Optional[RefusalNumber] = None
    left_out: Optional[Text] = None
    place: Optional[Count] = None
    entries: Optional[Count] = None
    canon: Optional[Hash] = None
    canon_size: Optional[Count] = None
    why: Optional[Text] = None
    kind: Annotated[Optional[PageKind], Sql(schema=EARLIER)] = None
    looks_like: Annotated[Optional[Text], Sql(schema=EARLIER)] = None
    several: Annotated[Optional[Flag], Sql(schema=EARLIER)] = None
    stop: Annotated[Optional[Text], Sql(schema=EARLIER)] = None
    holds: Annotated[Optional[Count], Sql(schema=SCHEMA)] = None
    fault: Optional[str] = None
    cured: Optional[Cured] = None
    text: Optional[PageText] = None
    values: Optional[CanonValues] = None


class StoreTable(NamedTuple):
    """A table: its name and columns, and the rest of its words; and what else holds of each of its rows."""

    name: str
    columns: Tuple[Column, ...]
    key: str = ""
    has_rowid: bool = True
    rule: str = ""

    def words(self, schema: int = SCHEMA) -> str:
        """Its words in SQL. Columns that came later stand behind the others, as ALTER TABLE puts them."""
        items = [each.words for each in self.columns if each.schema == 1] + [self.key] * bool(self.key)
        later = "".join(f", {each.words}" for each in self.columns if 1 < each.schema <= schema)
        words = _filled([f"CREATE TABLE {self.name}({items[0]},", *(f"{each}," for each in items[1:-1]),
                         f"{items[-1]})", *["WITHOUT ROWID"] * (not self.has_rowid)])
        return f"{words[:-1]}{later})" if later else words

    def added(self) -> Iterator[Column]:
        """The columns that the schema before hasn't."""
        return (each for each in self.columns if each.schema == SCHEMA)

    def rules(self) -> str:
        """What holds of each of its rows, in SQL."""
        some = [f"({f'{each.name} IS NULL OR ' if each.may_lack else ''}{each.kind.sql(each.name)})"
                for each in self.columns]
        return " AND ".join([*some, self.rule] if self.rule else some)


def listed(row: Any, *more: str) -> str:
    """The columns of a row, and others after them, as they stand in SQL."""
    return ", ".join([*(each.name for each in columns(row)), *more])


def marks(row: Any, more: int = 0) -> str:
    """The parameters of the columns of a row, and of a number of others after them."""
    return ", ".join("?" * (len(columns(row)) + more))


def taken_over(names: str) -> str:
    """What takes the listed columns of a new row over into one that is there."""
    return ", ".join(f"{each} = excluded.{each}" for each in names.split(", "))


def _filled(items: Sequence[str]) -> str:
    """The items in lines."""
    lines = [items[0]]
    for each in items[1:]:
        if len(lines[-1]) + 1 + len(each) <= WIDTH:
            lines[-1] += " " + each
        else:
            lines.append("    " + each)
    return "\n".join(lines)


ID = Column("id", COUNT, False, "PRIMARY KEY")
OF_PAGE = Column("page", COUNT, False, "PRIMARY KEY REFERENCES pages")
OF_TERMS, OF_RUN = Column("terms", COUNT, False, "REFERENCES terms"), Column("run", COUNT, False, "REFERENCES runs")
HAS_TERMS, HAS_RUN = "terms IN (SELECT id FROM terms)", "run IN (SELECT id FROM runs)"
META = "CREATE TABLE meta(key TEXT PRIMARY KEY, value) WITHOUT ROWID"
_ANSWER = columns(Answered)
TABLES: Dict[str, StoreTable] = {table.name: table for table in (
    StoreTable("terms", (ID, *columns(Terms)), "UNIQUE(program_hash, form, budget)"),
    StoreTable("runs", (ID, *columns(StoredRun)), rule=HAS_TERMS),
    StoreTable("roots", columns(Root), "PRIMARY KEY(run, path)", False, HAS_RUN),
    StoreTable("folders", (ID, *columns(Folder), OF_RUN), rule=HAS_RUN),
    StoreTable("pages", (ID, *(each for each in _ANSWER if each.schema == 1), OF_TERMS, OF_RUN,
                    *(each for each in _ANSWER if each.schema > 1)), rule=f"""{HAS_TERMS} AND {HAS_RUN} AND CASE state
        WHEN {ACCEPTED} THEN entries IS NOT NULL AND canon IS NOT NULL AND canon_size IS NOT NULL AND number IS NULL
        AND looks_like IS NULL AND (kind IS NULL OR kind < {CAPTURE}) AND (holds IS NULL OR holds = 0)
        WHEN {REFUSED} THEN number IS NOT NULL AND place IS NOT NULL AND canon IS NULL
        AND (kind IS NULL AND (holds IS NULL OR holds = 0) OR kind IS {CAPTURE} AND holds >= 2)
        ELSE canon IS NULL AND number IS NULL AND kind IS NULL AND looks_like IS NULL END"""),
    StoreTable("faults", columns(Fault)),
    StoreTable("cures", (OF_PAGE, OF_TERMS, *columns(Cured)), rule=f"""{HAS_TERMS} AND (grade IS NULL
        OR treatments IS NOT NULL AND entries IS NOT NULL AND copy IS NOT NULL)
        AND (canon IS NULL OR grade IS NOT NULL AND canon_size IS NOT NULL)"""),
    StoreTable("files", (*columns(File), Column("page", COUNT, True, "REFERENCES pages"), OF_RUN),
          "PRIMARY KEY(folder, name)", False, HAS_RUN),
    StoreTable("texts", (OF_PAGE, OF_TERMS, *columns(PageText)),
          rule=f"{HAS_TERMS} AND page IN (SELECT id FROM pages)"))}
# They are built after the rows of a first scan, which is faster.
INDEXED = {"pages_by_canon": "pages(canon) WHERE canon IS NOT NULL",
           "pages_by_number": "pages(number) WHERE number IS NOT NULL",
           "files_by_page": f"files(page) WHERE state = {READ}"}
INDICES = "".join(f"CREATE INDEX IF NOT EXISTS main.{name} ON {words};\n" for name, words in INDEXED.items())
# What a copy draws isn't known that a treatment made which took pages away before.
TOOK = "('+' || treatments || '+') LIKE '%+header+%' OR ('+' || treatments || '+') LIKE '%+tail+%'"
RENEWED = {column: f"CASE WHEN {TOOK} THEN NULL ELSE {column} END" for column in ("grade", "canon", "canon_size")}
# The index of words, which a store needn't have, and the tables in which FTS5 keeps it, in FTS5's own words.
INDEX = "words"
WORDS = ("CREATE VIRTUAL TABLE words USING fts5(text, content='texts', content_rowid='page', "
         "tokenize='unicode61 remove_diacritics 2')")
SHADOWS = {
    "words_data": "CREATE TABLE 'words_data'(id INTEGER PRIMARY KEY, block BLOB)",
    "words_idx": "CREATE TABLE 'words_idx'(segid, term, pgno, PRIMARY KEY(segid, term)) WITHOUT ROWID",
    "words_docsize": "CREATE TABLE 'words_docsize'(id INTEGER PRIMARY KEY, sz BLOB)",
    "words_config": "CREATE TABLE 'words_config'(k PRIMARY KEY, v) WITHOUT ROWID"}
TEXT_INDEX = {INDEX: WORDS, **SHADOWS}
# The options that a scan keeps to, in the table meta, by what shows that the schema before was scanned with them.
OPTIONS = {"cures": "cures", "words": "texts"}


def created(schema: int = SCHEMA) -> str:
    """The tables of a schema."""
    return ";\n".join([META, *(table.words(schema) for table in TABLES.values())]) + ";\n"


def listing(schema: int = SCHEMA) -> str:
    """The view of a schema."""
    capture, pages = ("", "") if schema <= EARLIER else (f" WHEN {CAPTURE} THEN 'capture'",
                                                         ", nullif(p.holds, 0) AS pages")
    return f"""CREATE VIEW listing AS SELECT CAST(CASE WHEN f.name = x'' THEN substr(d.path, 1, length(d.path) - 2)
        WHEN substr(d.path, -2) = x'212F' THEN substr(d.path, 1, length(d.path) - 1) || f.name
        WHEN substr(d.path, -1) = x'2F' THEN d.path || f.name ELSE d.path || x'2F' || f.name END AS TEXT) AS name,
    CASE f.state WHEN {READ} THEN CASE p.state WHEN {ACCEPTED} THEN 'accepted' WHEN {REFUSED} THEN 'refused' \
ELSE 'no answer' END
        WHEN {UNREADABLE} THEN 'unreadable' WHEN {VANISHED} THEN 'vanished' WHEN {TOO_LONG} THEN 'too long' \
WHEN {NOT_A_FILE} THEN 'not a file'
        WHEN {CHANGED} THEN 'changed' ELSE 'gone' END AS status,
    p.number, (SELECT t.name FROM faults t WHERE t.number = p.number) AS fault, p.left_out AS code, p.place, p.entries,
    coalesce(f.why, p.why) AS reason, f.size, nullif(lower(hex(p.own)), '') AS hash,
    nullif(lower(hex(p.canon)), '') AS canonical,
    p.canon_size AS canonical_size,
    CASE p.kind WHEN {PAGE} THEN 'page' WHEN {TEXT} THEN 'text' WHEN {BLANK} THEN 'blank'{capture} END AS kind,
    nullif(p.looks_like, '') AS looks_like, p.several AS perhaps_several, c.treatments,
    CASE c.grade WHEN {AROUND} THEN 'around' WHEN {WITHIN} THEN 'within' END AS grade, c.entries AS treated_entries,
    nullif(lower(hex(c.copy)), '') AS treated_hash, nullif(lower(hex(c.canon)), '') AS treated_canonical,
    c.canon_size AS treated_canonical_size, p.stop AS stops{pages}
    FROM files f JOIN folders d ON d.id = f.folder LEFT JOIN pages p ON p.id = f.page AND f.state = {READ}
    LEFT JOIN cures c ON c.page = p.id AND c.terms = p.terms
    WHERE {IS_FILE}"""


def objects(schema: int = SCHEMA) -> Dict[Tuple[str, str], str]:
    """The tables, the indices and the view of a schema, by kind and name, in the words that SQLite keeps of each."""
    return {("table", "meta"): META, **{("table", name): table.words(schema) for name, table in TABLES.items()},
            ("view", "listing"): listing(schema),
            **{("index", name): f"CREATE INDEX {name} ON {words}" for name, words in INDEXED.items()}}


def keep(option: str, store: str = "main") -> str:
    """What notes in a store that it keeps to an option, where the store of this name shows that."""
    return (f"INSERT OR IGNORE INTO main.meta SELECT '{option}', 1 "
            f"WHERE EXISTS(SELECT 1 FROM {store}.meta WHERE key = '{option}') "
            f"OR EXISTS(SELECT 1 FROM {store}.{OPTIONS[option]})")


def renewal() -> str:
    """The statements that renew a store of the previous schema.

    What is added to a table stands after its other columns, so its words are those of a new store. Of treated copies
    that may lack a page it isn't known any more what they draw.
    """
    added = [f"ALTER TABLE {name} ADD COLUMN {column.words}" for name, table in TABLES.items()
             for column in table.added()]
    renewed = ", ".join(f"{column} = {value}" for column, value in RENEWED.items())
    return "; ".join([*added, *map(keep, OPTIONS), f"UPDATE cures SET {renewed}",
                      f"UPDATE meta SET value = '{SCHEMA}' WHERE key = 'schema';"])


def unknown(name: str) -> Dict[str, str]:
    """The columns that a table of the schema before hasn't, or has by other rules, and their values by those of now."""
    added = {each.name: "NULL" for each in TABLES[name].added()} if name else {}
    return {**added, **(RENEWED if name == "cures" else {})}


def as_now() -> Iterator[Tuple[str, str]]:
    """The names of tables of the schema before that aren't those of this one, and their rows by the rules of now."""
    for name, table in TABLES.items():
        others = unknown(name)
        if others:
            some = (f"{others[each.name]} AS {each.name}" if each.name in others else each.name
                    for each in table.columns)
            yield name, f"SELECT {', '.join(some)} FROM main.{name}"


def require_right(connection: sqlite3.Connection, optional: Sequence[StoreTable] = ()) -> None:
    """Looks at each value of a store, which needn't have the optional tables. Raises NotAStore."""
    names = {name for name, in connection.execute("SELECT name FROM main.sqlite_master")}
    for table in (*TABLES.values(), *(table for table in optional if table.name in names)):
        if connection.execute(f"SELECT 1 FROM {table.name} WHERE NOT ({table.rules()}) LIMIT 1").fetchone():
            raise NotAStore(messages.WRONG_ROW.format(table=table.name))
