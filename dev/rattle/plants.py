"""What `rt plant` lets through, as it prints it and as docs/measurements/plants.tsv has it."""
import re
from pathlib import Path
from typing import Iterator, NamedTuple, Optional, Set

from dev.tables import rows_in

TABLE = "docs/measurements/plants.tsv"
COLUMNS = ("crate", "kind", "function", "body", "reason")
NO_BODY = "-"
FINDING = re.compile(
    r"^(?P<kind>proves|no-ensures|untested) +src/\S+?:\d+ (?P<function>.+?)(?:: (?P<body>\{.*?\})|\(\))(?:  \(.*)?$"
)
COUNTS = re.compile(r"^plants crate=\w+ planted-in=(?P<functions>\d+) .*not-run=(?P<left>\d+)$")


class Finding(NamedTuple):
    """What got through: the crate, what kind it is, the function, and the body that met its contract, or NO_BODY."""

    crate: str
    kind: str
    function: str
    body: str


class Planted(NamedTuple):
    """What a run found in a crate, in how many functions it planted, whether all was tried, and its last line."""

    findings: Set[Finding]
    functions: int
    is_whole: bool
    counts: str


def planted_in(crate: str, output: str) -> Optional[Planted]:
    """What `rt plant` printed of a crate, laws apart, which no plant tests; or None where it didn't come to an end."""
    lines = output.splitlines()
    rows = (row for row in map(FINDING.match, lines) if row and not _is_law(row["kind"], row["function"]))
    findings = {Finding(crate, row["kind"], row["function"], row["body"] or NO_BODY) for row in rows}
    ended = COUNTS.match(lines[-1]) if lines else None
    return Planted(findings, int(ended["functions"]), ended["left"] == "0", lines[-1]) if ended else None


def _is_law(kind: str, function: str) -> bool:
    return kind == "untested" and function.startswith("laws::")


def known_in(table: Path) -> Set[Finding]:
    """The findings of the table; raises ValueError as `rows_in` does."""
    return {Finding(*row[:-1]) for row in rows_in(table, COLUMNS)}


def differences(crate: str, planted: Planted, known: Set[Finding]) -> Iterator[str]:
    """What is found in a crate and not known; and where all plants were tried, what is known and isn't found. (Else a
    function may be untested for lack of time.)"""
    new = {finding for finding in planted.findings - known if planted.is_whole or finding.kind != "untested"}
    gone = {finding for finding in known - planted.findings if planted.is_whole and finding.crate == crate}
    for finding in sorted(new):
        yield f"{TABLE} wants this row, with its reason:\n" + "\t".join(finding)
    for finding in sorted(gone):
        yield f"this row of {TABLE} isn't found any more:\n" + "\t".join(finding)
