"""The rows of crates/nap_rows/data, and the vectors, by the program nap_rows as it was built last: it tries each row
whole, in single bytes and at each cut."""
import os
import subprocess
from pathlib import Path

import pytest

from dev.layout import TOP
from dev.vectors.rows import files

CRATE = TOP / "crates" / "nap_rows"
DATA = sorted((CRATE / "data").glob("*.rows"))


@pytest.fixture(scope="session")
def nap_rows() -> str:
    """The program."""
    for program in (CRATE / "out" / "nap_rows", TOP / "out" / "nap_rows"):
        if os.access(program, os.X_OK):
            return str(program)
    pytest.skip("nap_rows isn't built: run `rt run` in crates/nap_rows")


def test_arguments_name_all_rows() -> None:
    """`rt run` tries all files of rows."""
    assert (CRATE / "args").read_text("ascii").split() == [file.name for file in DATA]


@pytest.mark.proofs
@pytest.mark.parametrize("file", [*DATA, *files()], ids=lambda file: f"{file.parent.name}-{file.stem}")
def test_rows(nap_rows: str, file: Path) -> None:
    """The library in Rattle reads each row of a file alike, and as the row says."""
    run = subprocess.run([nap_rows, str(file)], stdout=subprocess.PIPE, stderr=subprocess.STDOUT)
    assert run.returncode == 0, run.stdout[-2000:].decode("utf-8", "replace")
