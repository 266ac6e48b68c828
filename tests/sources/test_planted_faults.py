"""The table of faults fits the sources: each fault can be planted, and the test that catches it is there."""
import ast
import shutil
from pathlib import Path

import pytest

from dev.layout import TOP
from dev.planted_faults import FAULTS, Fault


def test_names_are_apart() -> None:
    assert len({fault.name for fault in FAULTS}) == len(FAULTS)


@pytest.mark.parametrize("fault", FAULTS, ids=[fault.name for fault in FAULTS])
def test_a_fault_fits(tmp_path: Path, fault: Fault) -> None:
    """The text that goes is there, once, and so is the test: a file, and a function of it."""
    source, copy = TOP / fault.edit.name, tmp_path / fault.edit.name
    copy.parent.mkdir(parents=True, exist_ok=True)
    shutil.copy(source, copy)
    fault.edit.make(tmp_path)
    assert not copy.is_file() or copy.read_bytes() != source.read_bytes(), f"{fault.edit.name} stays as it is"
    file, _, name = fault.test.split()[0].partition("::")
    assert (TOP / file).is_file(), f"there is no {file}"
    if name:
        nodes = ast.parse((TOP / file).read_text("utf-8")).body
        assert name in {node.name for node in nodes if isinstance(node, ast.FunctionDef)}, f"{file} has no {name}"
