"""What the tests share: the command, the program, and programs that fail."""
import os
import pathlib
import shutil
import signal
import stat
import subprocess
import sys
from typing import Callable, Dict, Iterator, List, Optional

import pytest
from hypothesis import settings

from choosing import choose, pytest_addoption, pytest_configure, pytest_terminal_summary
from command import COMMAND, NOBODY, PACKAGES, TOP, Run, bare, open_to_all
from naplps import client as client_module
from naplps.faults import NoProgram

sys.dont_write_bytecode = True

__all__ = ["pytest_addoption", "pytest_configure", "pytest_terminal_summary"]

# (no test asserts a time)
settings.register_profile("untimed", deadline=None, database=None)
settings.load_profile("untimed")

# A signal that is ignored here, as in a job in the background, would be ignored by the commands that are tried too; one
# that is caught here isn't.
for number in (signal.SIGINT, signal.SIGTERM, signal.SIGHUP):
    if signal.getsignal(number) == signal.SIG_IGN:
        signal.signal(number, lambda *_: None)

# The marks of the tests of a folder.
MARKS = {"browser": "browser", "packages": "packages"}


def pytest_collection_modifyitems(config: pytest.Config, items: "List[pytest.Item]") -> None:
    """Gives each test the mark of its folder, and leaves those that are asked for by --changed."""
    for item in items:
        folder = item.path.relative_to(os.path.join(TOP, "tests")).parts[0]
        if folder in MARKS:
            item.add_marker(MARKS[folder])
    choose(config, items)


@pytest.fixture(scope="session")
def naplps() -> str:
    """The path of the program."""
    try:
        return client_module.find(COMMAND)
    except NoProgram as error:
        pytest.exit(str(error), 77)


@pytest.fixture
def run(naplps: str) -> Run:
    """Runs naplps-pages with words; `program` is the one that it asks."""
    def runs(words: List[str], stdin: bytes = b"", program: Optional[str] = None, cwd: Optional[str] = None,
             env: Optional[Dict[str, str]] = None, keeps: str = "") -> "subprocess.CompletedProcess[bytes]":
        where = dict(os.environ, NAPLPS=program or naplps, PYTHONDONTWRITEBYTECODE="1", **(env or {}))
        return subprocess.run([COMMAND, *bare(words, cwd, keeps)], input=stdin, capture_output=True, cwd=cwd, env=where,
                              timeout=900)
    return runs


@pytest.fixture
def fake(tmp_path: "os.PathLike[str]") -> Callable[[str], str]:
    """Makes a program of Python lines, which is asked in place of naplps."""
    def makes(lines: str) -> str:
        path = os.path.join(str(tmp_path), "fake-naplps")
        with open(path, "w", encoding="ascii") as file:
            file.write("#!/usr/bin/python3\nimport os, sys, time\n" + lines)
        os.chmod(path, os.stat(path).st_mode | stat.S_IXUSR | stat.S_IXGRP | stat.S_IXOTH)
        return path
    return makes


@pytest.fixture
def run_as_nobody(naplps: str, tmp_path: pathlib.Path) -> Run:
    """Runs the command as a user who owns nothing, from a copy that all may read, wherever the sources stand."""
    copy = tmp_path / "copy"
    unwanted = shutil.ignore_patterns("__pycache__")
    for name in ("naplps", "naplps_pages"):
        shutil.copytree(os.path.join(PACKAGES, name), copy / name, ignore=unwanted)
    shutil.copy(os.path.join(TOP, "VERSION"), copy / "naplps")
    shutil.copy(COMMAND, copy)
    program = copy / "program" / os.path.basename(naplps)
    program.parent.mkdir()
    shutil.copy(naplps, program)
    open_to_all(tmp_path)
    for path in (copy, *copy.rglob("*")):
        path.chmod(path.stat().st_mode | 0o444 | (0o111 if path.is_dir() or path.stat().st_mode & 0o100 else 0))
    where = dict(os.environ, NAPLPS=str(program))

    def runs(*words: str, cwd: Optional[str] = None) -> "subprocess.CompletedProcess[bytes]":
        return subprocess.run([str(copy / "naplps-pages"), *bare([*words], cwd)], capture_output=True, cwd=cwd,
                              env=where, user=NOBODY, group=NOBODY, extra_groups=[])
    return runs


@pytest.fixture
def small_disk(tmp_path: pathlib.Path) -> Iterator[str]:
    """A disk of 2 MiB."""
    at = str(tmp_path / "disk")
    os.mkdir(at)
    if subprocess.run(["mount", "-t", "tmpfs", "-o", "size=2m", "none", at], capture_output=True).returncode:
        pytest.skip("nothing can be mounted here")
    yield at
    subprocess.run(["umount", at], check=True)
