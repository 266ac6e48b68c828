"""Two streams for each wrong body of the gate: one that its program answers rightly, and one wrongly."""
import subprocess
from pathlib import Path
from typing import Iterator, List, NamedTuple, Tuple

from dev.rattle.edits import PLACES, edits_in, sum_of_edit
from dev.tables import rows_in
from dev.vectors.notation import bytes_of

FILE = "dev/rattle/streams.tsv"
NOTHING = "-"


class Pair(NamedTuple):
    """The streams of an edit, the command that reads them (or `rows`), and the sum of what was tried, or `-`."""

    crate: str
    edit: str
    command: str
    right: str
    wrong: str
    tried: str


def pairs_of(root: Path) -> List[Pair]:
    """The streams of all edits."""
    return [Pair(*row) for row in rows_in(root / FILE, Pair._fields)]


def edit_of(root: Path, pair: Pair) -> Path:
    """The edit's file."""
    return root / "crates" / pair.crate / PLACES["gate"] / f"{pair.edit}.edit"


def sum_of_pair(root: Path, pair: Pair) -> str:
    """A sum over the edit, the tokens of the files that it changes, and its streams."""
    return sum_of_edit(edit_of(root, pair), root / "crates" / pair.crate, repr(pair[2:5]))


def stream_of(text: str) -> bytes:
    """The bytes that a text spells: those between quotes as they are, and others as vectors spell them."""
    return b"" if text == NOTHING else bytes_of(text)


def answer_of(program: Path, command: str, text: str) -> Tuple[int, bytes, bytes]:
    """The status of a program that reads a stream, and what it wrote."""
    ran = subprocess.run([program, *command.split()], input=stream_of(text), capture_output=True, timeout=60)
    return ran.returncode, ran.stdout, ran.stderr


def faults_of_pairs(root: Path, names: List[str]) -> Iterator[str]:
    """What is wrong with the streams of the edits of the gate, of the crates with these names."""
    pairs = {(pair.crate, pair.edit): pair for pair in pairs_of(root)}
    there = [(name, edit.stem) for name in names for edit in edits_in(root / "crates" / name / PLACES["gate"])]
    for crate, name in sorted(set(pairs) - set(there)):
        yield f"{FILE} names {crate}/{name}, which the gate hasn't got"
    for key in there:
        pair = pairs.get(key)
        if pair is None:
            yield f"{FILE} has no streams for {'/'.join(key)}"
        elif pair.tried not in (NOTHING, sum_of_pair(root, pair)):
            yield f"{pair.edit} changed since its streams were tried: run python3 -m dev.try_streams"
