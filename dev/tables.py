"""Tables whose columns are apart by tabs, and whose first line names them."""
import csv
from pathlib import Path
from typing import List, Sequence


def rows_in(path: Path, columns: Sequence[str]) -> List[List[str]]:
    """The rows of a table that has these columns; raises ValueError where the head or a row hasn't a text in each."""
    with path.open(encoding="utf-8", newline="") as file:
        head, *rows = csv.reader(file, delimiter="\t", quoting=csv.QUOTE_NONE)
    for number, row in enumerate([head, *rows], 1):
        if len(row) != len(columns) or not all(row) or number == 1 and row != [*columns]:
            raise ValueError(f"{path.name}:{number} hasn't a text in each of the columns {', '.join(columns)}")
    return rows


def write_rows(path: Path, columns: Sequence[str], rows: Sequence[Sequence[str]]) -> None:
    """Writes a table."""
    path.write_text("".join("\t".join(row) + "\n" for row in [columns, *rows]), "utf-8")
