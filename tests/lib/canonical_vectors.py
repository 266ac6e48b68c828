"""The canonical streams of all vectors and rows."""
from pathlib import Path
from typing import Iterator, List, Tuple

from command import TOP

from dev.vectors.crate_rows import rows_of
from dev.vectors.lines import rows as rows_of_lines
from dev.vectors.notation import bytes_of, lines_of
from dev.vectors.rows import files, vectors_of


def vectors() -> Iterator[Tuple[bytes, List[str]]]:
    """The canonical stream of each vector and each row that has one, with its lines."""
    for file in files():
        for vector in vectors_of(file):
            if vector.accepted:
                yield bytes_of(vector.ending), lines_of(vector.list)
    for row in rows_of(Path(TOP, "crates", "nap_rows", "data")):
        if row.canonical is not None and row.lines is not None and row.canonical[:1]:
            yield row.canonical, row.lines
    for list_row in rows_of_lines():
        if list_row.text is not None:
            yield list_row.text, list_row.lines.decode("ascii").splitlines()
