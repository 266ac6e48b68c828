"""What is kept of the wrong bodies of a repository, and what is wrong with it.

A crate's file `wrong-bodies/refused` names its edits that the prover refused, each with the sum of what decided that.
docs/wrong-bodies.tsv has a row for each edit of each crate.
"""
from collections import Counter
from pathlib import Path
from typing import Dict, Iterator, List

from dev.rattle.clauses import Sums
from dev.rattle.edits import PLACES, Unfit, Where, edits_in, sum_of_edit, where
from dev.rattle.promises import LIST, NO_EDIT, Row, faults_of_promises, rows_of_list
from dev.rattle.streams import faults_of_pairs

HEAD = "# The wrong bodies that the prover refused. python3 -m dev.wrong_bodies writes this file.\n"
# Why an edit is kept, although rt plant makes wrong bodies too.
GATE, LOOP, DEFINITION, ONLY, OTHER = "gate", "loop", "definition", "only", "other"


def edits_apart(root: Path, name: str) -> List[Path]:
    """The edits of a crate that are tried apart."""
    return edits_in(root / "crates" / name / PLACES["apart"])


def read_refused(crate: Path) -> Dict[str, str]:
    """The edits of a crate that were refused, each with its sum."""
    file = crate / PLACES["apart"] / "refused"
    lines = file.read_text("utf-8").splitlines() if file.exists() else []
    return dict(line.split(" ", 1) for line in lines if line and not line.startswith("#"))


def write_refused(crate: Path, refused: Dict[str, str]) -> None:
    """Keeps which edits of a crate were refused."""
    lines = [f"{name} {decided_by}\n" for name, decided_by in sorted(refused.items())]
    (crate / PLACES["apart"] / "refused").write_text(HEAD + "".join(lines), "utf-8")


def faults_of_verdicts(root: Path, name: str, sums: Sums) -> Iterator[str]:
    """The edits of a crate that are tried apart and weren't refused as they are; one that doesn't fit isn't looked
    at."""
    crate = root / "crates" / name
    kept, edits = read_refused(crate), edits_apart(root, name)
    for edit in edits:
        try:
            is_kept = kept.get(edit.stem) == sum_of_edit(edit, crate, sums.of(name))
        except Unfit:
            continue
        if not is_kept:
            yield f"{name}: the wrong body {edit.stem} has no verdict: run python3 -m dev.wrong_bodies {name}"
    for gone in sorted(set(kept) - {edit.stem for edit in edits}):
        yield f"{name}: there is a verdict on {gone}, and no such wrong body: run python3 -m dev.wrong_bodies {name}"


def _columns_of(row: Row, is_only: bool, place: Where) -> Dict[str, str]:
    """The columns of an edit's row, as its edit wants them."""
    kept = row.kept
    holds = {GATE: row.place == GATE, LOOP: place.is_in_loop, DEFINITION: place.is_outside, ONLY: is_only}
    if not holds.get(row.kept, row.kept == OTHER) or (row.place == GATE) != (row.kept == GATE):
        kept = " or ".join(word for word in (GATE, LOOP, DEFINITION, ONLY) if holds[word]) or OTHER
    return {"file": ", ".join(place.files), "function": ", ".join(place.names), "kept": kept}


def faults_of_list(root: Path, names: List[str]) -> Iterator[str]:
    """What differs between the list of wrong bodies and the edits of the crates with these names."""
    rows = [row for row in rows_of_list(root) if row.edit != NO_EDIT]
    first = Counter(row.promises[0] for row in rows)
    listed = {root / "crates" / row.crate / PLACES[row.place] / f"{row.edit}.edit": row for row in rows}
    there = {edit for name in names for place in PLACES.values() for edit in edits_in(root / "crates" / name / place)}
    for edit in sorted(there - set(listed)):
        yield f"{edit.relative_to(root)} isn't in {LIST}"
    for edit in sorted(set(listed) - there):
        yield f"{LIST} names {edit.relative_to(root)}, which isn't there"
    for edit in sorted(there & set(listed)):
        row = listed[edit]
        is_only = any(first[promise] == (promise == row.promises[0]) for promise in row.promises)
        try:
            columns = _columns_of(row, is_only, where(edit, root / "crates" / row.crate))
        except Unfit as reason:
            yield f"{edit.relative_to(root)}: {reason}"
            continue
        for column, text in columns.items():
            if getattr(row, column) != text:
                yield f"{LIST}: {row.edit}: the column {column} has {getattr(row, column)}, where its edit wants {text}"


def faults(root: Path) -> Iterator[str]:
    """What is wrong with the wrong bodies of all crates, with their list, their streams and their promises."""
    sums = Sums(root)
    for name in sums.crates:
        yield from faults_of_verdicts(root, name, sums)
    yield from faults_of_list(root, list(sums.crates))
    yield from faults_of_pairs(root, list(sums.crates))
    yield from faults_of_promises(root)
