"""What the tests of the program share."""
import os
import subprocess
from pathlib import Path

import pytest

from faults import Faults, build_library
from long_pages import write_long
from samples import need


# The program itself, with calls that fail and with long pages.

@pytest.fixture(scope="session")
def program_file(naplps: str) -> str:
    """The program itself, where `naplps` may be its launcher."""
    with open(naplps, "rb") as file:
        if file.read(4) == b"\x7fELF":
            return naplps
    env = {**os.environ, "NAPLPS_WHERE": "1"}
    return subprocess.run([naplps], env=env, stdout=subprocess.PIPE, check=True, encoding="utf-8").stdout.rstrip("\n")


@pytest.fixture(scope="session")
def faults(program_file: str, tmp_path_factory: pytest.TempPathFactory) -> Faults:
    """The program beside the library that makes its calls fail."""
    need("cc", "gcc")
    folder = tmp_path_factory.mktemp("faults")
    build_library(folder)
    return Faults(program_file, folder)


@pytest.fixture(scope="session")
def long_pages(tmp_path_factory: pytest.TempPathFactory) -> Path:
    """A folder with the two pages of 64 MiB."""
    folder = tmp_path_factory.mktemp("long")
    write_long(folder)
    return folder
