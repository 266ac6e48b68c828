"""The rows of docs/PROFILE.md that vectors name: of its tables, and of its lists whose items have a name or a number.

After a table or a list stands a line "Vectors: `tag` in [file](../vectors/file.rows)." A vector names a row as `tag`
and the beginning of the row, and a rule that isn't a row by the heading of its section.
"""
import re
from typing import Dict, List, NamedTuple, Optional

VECTORS = re.compile(r"Vectors: `(?P<tag>[a-z0-9]+)` in (?P<files>.*)\.")
FILE = re.compile(r"\[[^]]*\]\(\.\./vectors/(?P<name>[a-z-]+)\.rows\)")
ITEM = re.compile(r"(?:- \*\*(?P<name>[^*]+)\.\*\*|(?P<number>[0-9]+)\.) ")
HEADING = re.compile(r"#+ (?P<text>.*)")


class Row(NamedTuple):
    """A row: the tag of its table, its first cell, and all of its text."""

    tag: str
    first: str
    text: str


class Profile(NamedTuple):
    """What vectors may name: headings, rows, and the files of each tag; and the headings of tables without vectors."""

    headings: List[str]
    rows: List[Row]
    files: Dict[str, List[str]]
    without: List[str]


def bare(text: str) -> str:
    """A text without the marks of code, links and stress."""
    return re.sub(r"\[([^]]*)\]\([^)]*\)", r"\1", text.replace("`", "").replace("*", "")).strip()


def cells_of(line: str) -> List[str]:
    """The cells of a line of a table."""
    return [bare(cell) for cell in line.strip().strip("|").split("|")]


def parts_of(lines: List[str]) -> List[List[str]]:
    """The rows of a table, as their cells. Where its heads come twice, or an empty one parts them, a line has two."""
    heads = cells_of(lines[0])
    half = len(heads) // 2
    if "" in heads[1:-1] and heads.index("") == half:
        cuts = [slice(0, half), slice(half + 1, None)]
    elif heads[:half] == heads[half:]:
        cuts = [slice(0, half), slice(half, None)]
    else:
        cuts = [slice(0, None)]
    rows = [cells_of(line)[cut] for cut in cuts for line in lines[2:]]
    return [row for row in rows if row[0]]


def read_profile(text: str) -> Profile:
    """The headings and rows of the document."""
    profile = Profile([], [], {}, [])
    block: List[List[str]] = []
    table: List[str] = []
    for line in [*text.splitlines(), ""]:
        heading, item, vectors = HEADING.fullmatch(line), ITEM.match(line), VECTORS.fullmatch(line)
        if line.startswith("|"):
            table.append(line)
            continue
        if table:
            block, table = parts_of(table), []
            profile.without.append(profile.headings[-1])
        if heading:
            profile.headings.append(bare(heading["text"]))
            block = []
        elif item:
            block.append([bare(item["name"] or item["number"])])
        elif vectors:
            _take(profile, vectors, block)
            block = []
    return profile


def _take(profile: Profile, vectors: "re.Match[str]", block: List[List[str]]) -> None:
    """Adds the rows of a block, whose files are named."""
    tag = vectors["tag"]
    profile.files[tag] = FILE.findall(vectors["files"])
    profile.rows.extend(Row(tag, cells[0], " ".join(cells)) for cells in block)
    if len(block[0]) > 1:
        profile.without.pop()


def row_named(profile: Profile, rule: str) -> Optional[Row]:
    """The row that a rule names, if it names one: by its first cell, or by its beginning up to the end of a word."""
    tag, _, name = rule.partition(" ")
    rows = [row for row in profile.rows if row.tag == tag]
    exact = [row for row in rows if row.first == name]
    prefixed = [row for row in rows if re.match(re.escape(name) + r"(?!\w)", row.text)]
    found = exact or prefixed
    return found[0] if len(found) == 1 else None
