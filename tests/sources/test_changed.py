"""Which tests a change needs, by the rules and by what the tests import and name."""
import subprocess
from fnmatch import fnmatchcase
from typing import Set

import pytest

from changed import RULES, TESTS, TOP, modules, reached, rule_of, all_tests, needed_tests


def places(path: str) -> Set[str]:
    """The test files that a changed file needs, by their paths in tests/."""
    return {test.relative_to(TESTS).as_posix() for test in needed_tests([path])}


@pytest.mark.parametrize("path, needed, unneeded", [
    ("python/naplps_pages/collection/census.py", "tool/test_census.py", "browser/test_player.py"),
    ("python/naplps_pages/commands/check.py", "tool/test_commands.py", "browser/test_player.py"),
    ("python/naplps/dots/surface.py", "tool/test_raster.py", "program/test_words.py"),
    ("docs/MAKING.md", "tool/test_making_documents.py", "tool/test_scan_same.py"),
    ("crates/nap_rows/data/text.rows", "vectors/test_rows.py", "tool/test_house.py"),
    ("crates/nap_values/src/word.rt", "vectors/test_vectors.py", "browser/test_player.py"),
    ("man/naplps.1", "program/test_man.py", "tool/test_scan_same.py"),
    ("tests/lib/near_box.py", "tool/test_near.py", "tool/test_text.py"),
    ("tests/tool/test_text.py", "tool/test_text.py", "tool/test_near.py"),
    ("dev/judging.py", "program/test_words.py", "browser/test_player.py"),
    ("browser/page/page.js", "browser/test_browser_page.py", "program/test_words.py"),
    ("scripts/install", "packages/test_install.py", "tool/test_text.py"),
])
def test_a_change_needs_its_tests(path: str, needed: str, unneeded: str) -> None:
    assert (TOP / path).is_file()
    assert needed in places(path)
    assert unneeded not in places(path)


@pytest.mark.parametrize("path", ["HANDLES", ".gitignore", ".ci/run"])
def test_some_files_need_no_test(path: str) -> None:
    assert rule_of(path).nothing and not needed_tests([path])


def test_a_module_that_no_test_names_needs_all_of_the_tool() -> None:
    assert set((TESTS / "tool").glob("test_*.py")) <= needed_tests(["python/naplps_pages/" + "unknown"[::-1] + ".py"])


def test_each_pattern_of_a_test_fits_a_file() -> None:
    places = [test.relative_to(TESTS).as_posix() for test in all_tests()]
    unknown = {pattern for rule in RULES for pattern in rule.tests
               if not any(fnmatchcase(place, pattern) for place in places)}
    assert not unknown


def test_each_tracked_file_needs_a_test() -> None:
    """But those of which a rule says why they need none."""
    listed = subprocess.run(["git", "ls-files", "-z"], cwd=TOP, stdout=subprocess.PIPE, check=True, encoding="utf-8")
    paths = [path for path in listed.stdout.split("\0") if path and (TOP / path).is_file()]
    rules = {rule_of(path): path for path in paths}
    assert [path for rule, path in rules.items() if not rule.nothing and not needed_tests([path])] == []


def test_imports_are_followed() -> None:
    assert modules()["dev.layout"] in reached(modules()["dev.vectors.rows"])
    assert modules()["naplps.entry"] in reached(TESTS / "tool" / "test_sketch.py")
