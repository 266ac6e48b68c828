"""The option --changed of pytest: only the tests that a change needs, on a program of the sources as they are now.

A change is what differs from a commit, with new files. Where tokens of the program's crates changed, dev.try_change
builds the program without proof, and NAPLPS names it to the tests, unless it names one already. What the change needs
beside tests, as its proof, is told at the end.
"""
import os
import subprocess
import sys
from typing import List

import pytest
from _pytest.terminal import TerminalReporter

from changed import TOP, rule_of, needed_tests
from dev.crates import crates_in
from dev.packaging.for_browsers import FOLDER, make_page
from dev.packaging.kept import MADE, sources_sum
from dev.packaging.made import read_made

TRIED = TOP / "out" / "tried" / "naplps"


def pytest_addoption(parser: pytest.Parser) -> None:
    """Adds the option."""
    parser.addoption("--changed", nargs="?", const="HEAD", metavar="COMMIT", help=(
        "run only the tests that the change since the last commit needs, or since COMMIT (--changed=COMMIT)"))


def lines_of(*words: str) -> List[str]:
    """The names that a command of git prints."""
    command, *others = words
    result = subprocess.run(["git", command, "-z", *others], cwd=TOP, stdout=subprocess.PIPE, stderr=subprocess.PIPE,
                            encoding="utf-8")
    if result.returncode:
        raise pytest.UsageError(f"--changed: {result.stderr.strip()} (write --changed=COMMIT)")
    return [name for name in result.stdout.split("\0") if name]


def changed_since(commit: str) -> List[str]:
    """The files that differ from a commit, and those that are new."""
    if commit.startswith("-"):
        raise pytest.UsageError(f"--changed: {commit} is no commit")
    names = lines_of("diff", "--name-only", "--no-renames", commit, "--")
    return sorted({*names, *lines_of("ls-files", "--others", "--exclude-standard")})


def crates_of(files: List[str]) -> List[str]:
    """The crates whose sources are among the files, lowest first."""
    parts = [file.split("/") for file in files if file.startswith("crates/")]
    names = {part[1] for part in parts if len(part) > 3 and part[2] in ("src", "specs", "proofs")}
    return [name for name in crates_in(TOP) if name in names]


def is_other_program() -> bool:
    """Whether the sources are others than those of the kept program, to the token."""
    return read_made(MADE).get("program-sources") != sources_sum("nap_cli")


def left_over(files: List[str]) -> List[str]:
    """What a change needs beside its tests before it is handed on."""
    is_other_page = any((FOLDER / name).read_bytes() != file.data for name, file in make_page().items())
    pages = ["make browser"] if is_other_page else []
    crates = crates_of(files)
    if not crates:
        return pages
    if not is_other_program():
        return ["python3 -m dev.keep --comments", *pages]
    checks = [f"(cd crates/{crate} && rt fmt && rt check)" for crate in crates]
    return [*checks, *(f"python3 -m dev.wrong_bodies {crate}" for crate in crates), "scripts/test-all --keep"]


def pytest_configure(config: pytest.Config) -> None:
    """Builds the program where its sources changed."""
    commit = config.getoption("--changed")
    if commit is None or hasattr(config, "workerinput"):
        return
    files = changed_since(commit)
    if "NAPLPS" in os.environ or not crates_of(files) or not is_other_program():
        return
    words = [sys.executable, "-m", "dev.try_change"]
    if not config.option.collectonly and subprocess.run(words, cwd=TOP, stdout=subprocess.DEVNULL).returncode:
        raise pytest.UsageError("--changed: the sources make no program")
    os.environ["NAPLPS"] = str(TRIED)


def choose(config: pytest.Config, items: "List[pytest.Item]") -> None:
    """Leaves only the tests that the change needs."""
    commit = config.getoption("--changed")
    if commit is None:
        return
    needed = needed_tests(changed_since(commit))
    config.hook.pytest_deselected(items=[item for item in items if item.path not in needed])
    items[:] = [item for item in items if item.path in needed]


def pytest_terminal_summary(terminalreporter: TerminalReporter, config: pytest.Config) -> None:
    """Tells which changed files need no test, and what is left to run."""
    commit = config.getoption("--changed")
    if commit is None:
        return
    files = changed_since(commit)
    for file in files:
        if rule_of(file).nothing:
            terminalreporter.write_line(f"{file} needs no test: {rule_of(file).nothing}")
    for line in left_over(files):
        terminalreporter.write_line(f"left to run: {line}")
