"""Which test files a change needs, by the files that it changes.

Most of it is read off the tree: a test file is needed for the modules that it imports, directly or not, and for the
files that it names. What can't be read off is in RULES.
"""
import ast
import re
from fnmatch import fnmatchcase
from functools import lru_cache
from pathlib import Path
from typing import Dict, FrozenSet, Iterator, List, NamedTuple, Set, Tuple

TOP = Path(__file__).resolve().parents[2]
TESTS = TOP / "tests"
# Where modules are imported from, and which of their folders have some.
ROOTS = ((TOP / "python", "naplps"), (TOP / "python", "naplps_pages"), (TOP, "dev"), (TESTS / "lib", "."))
# Faults are planted in sources of all kinds.
PLANTED = "sources/test_planted_faults*"
PROGRAM = ("program/test_words*", "program/test_make*", "program/test_batch*", "program/test_man*",
           "vectors/test_vectors*")
CRATES = ("sources/test_public*", "sources/test_wrong_bodies*", "sources/test_citations*", "sources/test_headline*",
          "sources/test_repeated_clauses*", "sources/test_names*", "sources/test_promises*", PLANTED, *PROGRAM)
PYTHON = ("sources/test_python*", "sources/test_bounds*", PLANTED)
DOCUMENTS = ("sources/test_said_once*", "sources/test_stands_alone*", "sources/test_headline*", "sources/test_counts*",
             "sources/test_ways*", "sources/test_old_words*", "program/test_examples*", "tool/test_*documents*",
             PLANTED)
COMMANDS = ("tool/test_commands*", "tool/test_client*", "tool/test_documents*", "tool/test_house*")


class Rule(NamedTuple):
    """Changed files, by a pattern over their paths; and the tests that they need, by patterns over their paths in
    tests/, or why they need none."""

    pattern: str
    tests: Tuple[str, ...]
    nothing: str = ""


# The first rule that fits a file counts.
RULES = (
    Rule("HANDLES", (), "the toolchain refuses another"),
    Rule(".git*", (), "git alone reads it"),
    Rule(".ci*", (), "what runs the gate alone reads it"),
    Rule("NOTICES.md", ("packages/test_package*", "packages/test_kit_crates*")),
    Rule("VERSION", ("sources/test_versions*", "program/test_words*", "packages/test_package*",
                     "packages/test_browser*")),
    Rule("naplps", ("program/test_launcher*",)),
    Rule("debian/*", ("packages/test_package*", "sources/test_versions*")),
    Rule("pages/*", (*COMMANDS, "tool/test_interpreter*", "tool/test_start*")),
    Rule("dist/browser/*", ("packages/test_browser*", "library/test_webassembly*")),
    Rule("dist/*", ("program/test_launcher*", "sources/test_inline_marks*", "packages/test_kept*", PLANTED, *PROGRAM)),
    Rule("crates.txt", CRATES),
    Rule("crates/nap_rows/data/*", ("vectors/test_rows*", "program/test_batch*", "tool/test_module*", PLANTED)),
    Rule("crates/*/README.md", ("sources/test_promises*", *DOCUMENTS)),
    Rule("crates/*/wrong-bodies/*", ("sources/test_wrong_bodies*", PLANTED)),
    Rule("crates/*/must-fail/*", ("sources/test_wrong_bodies*",)),
    Rule("crates/*", CRATES),
    Rule("vectors/dots*", ("tool/test_dot_vectors*", "tool/test_raster*")),
    Rule("vectors/*", ("vectors/*", "library/test_library*")),
    Rule("man/*", ("program/test_man*", *DOCUMENTS, *COMMANDS)),
    Rule("completions/*", ("program/test_man*", "tool/test_collection_documents*", "tool/test_house*",
                          "sources/test_completions*", "sources/test_old_words*")),
    Rule("examples/*", ("program/test_examples*", "sources/test_gallery*", "tool/test_sketch*", "tool/test_gallery*")),
    Rule("library/*", ("library/*", "tool/test_module*")),
    Rule("browser/*", ("browser/*", "tool/test_*_script*", "library/test_webassembly*", "packages/test_browser*",
                      PLANTED)),
    Rule("python/pyproject.toml", (*PYTHON, "tool/test_pip*", "tool/test_house*")),
    Rule("python/naplps_pages/player/*", ("packages/test_browser*", "browser/test_player*", "browser/test_report*")),
    Rule("python/naplps_pages/*", (*PYTHON, *COMMANDS)),
    Rule("python/naplps/*", (*PYTHON, "tool/test_module*", "tool/test_house*")),
    Rule("tests/*/conftest.py", PYTHON),
    Rule("tests/*", PYTHON),
    Rule("dev/*", (*PYTHON, "sources/test_commands*")),
    Rule("scripts/*", (*PYTHON, "program/test_launcher*", "packages/test_install*")),
    Rule("Makefile", ("sources/test_commands*", PLANTED)),
    Rule("*.md", DOCUMENTS),
    Rule("docs/*", DOCUMENTS),
)
WORD = re.compile(r"[\w-]+(?:\.[\w-]+)*")
# Names that say too little.
COMMON = frozenset({"naplps", "naplps-pages", "__init__.py", "conftest.py", "README.md", "CHANGELOG.md"})


def all_tests() -> List[Path]:
    """Each test file of the tree."""
    return sorted(TESTS.rglob("test_*.py"))


@lru_cache(maxsize=None)
def modules() -> Dict[str, Path]:
    """The file of each module of the tree, by the name that it is imported by."""
    found: Dict[str, Path] = {}
    for root, folder in ROOTS:
        for path in sorted((root / folder).rglob("*.py")):
            words = path.relative_to(root).with_suffix("").parts
            found.setdefault(".".join(words[:-1] if words[-1] == "__init__" else words), path)
    return found


def imported(path: Path) -> Iterator[str]:
    """The names that a file of Python imports, each with that of its module before it."""
    for node in ast.walk(ast.parse(path.read_text("utf-8"), str(path))):
        if isinstance(node, ast.Import):
            yield from (name.name for name in node.names)
        elif isinstance(node, ast.ImportFrom) and node.module and not node.level:
            yield node.module
            yield from (f"{node.module}.{name.name}" for name in node.names)


@lru_cache(maxsize=None)
def reached(path: Path) -> FrozenSet[Path]:
    """The files of the tree that a file of Python imports, directly or not."""
    found: Set[Path] = set()
    waiting = [path]
    while waiting:
        for name in imported(waiting.pop()):
            module = modules().get(name)
            if module is not None and module not in found:
                found.add(module)
                waiting.append(module)
    return frozenset(found)


@lru_cache(maxsize=None)
def words_in(path: Path) -> FrozenSet[str]:
    """The words of a file: names with dots, and what is between these."""
    words = set(WORD.findall(path.read_text("utf-8")))
    return frozenset(words.union(*(word.split(".") for word in words)))


def rule_of(path: str) -> Rule:
    """The rule of a file; one that none fits needs the tests of documents and of Python."""
    for rule in RULES:
        if fnmatchcase(path, rule.pattern):
            return rule
    return Rule("*", (*DOCUMENTS, *PYTHON))


def names(path: str, test: Path) -> bool:
    """Whether a test file names a file by its name, or a module by that of its folder and its own, or is called so."""
    file = Path(path)
    if file.name in COMMON:
        return False
    if file.suffix == ".py" and file.name not in words_in(test):
        module = f"{file.parent.name}.{file.stem}"
        return test.stem == f"test_{file.stem}" or any(word.endswith(module) for word in words_in(test))
    return len(file.name) > 3 and file.name in words_in(test)


def needs(test: Path, path: str, rule: Rule) -> bool:
    """Whether a changed file needs a test file."""
    file, place = TOP / path, test.relative_to(TESTS).as_posix()
    return (test == file or any(fnmatchcase(place, pattern) for pattern in rule.tests) or file in reached(test)
            or names(path, test) or (file.name == "conftest.py" and file.parent in test.parents))


def needed_tests(paths: List[str]) -> Set[Path]:
    """The test files that changed files need. A module of the tool that no test imports or names needs all of the
    tool's tests."""
    found: Set[Path] = set()
    for path in paths:
        rule = rule_of(path)
        if rule.nothing:
            continue
        tests = {test for test in all_tests() if needs(test, path, rule)}
        by_rule = [test for test in tests if any(fnmatchcase(test.relative_to(TESTS).as_posix(), pattern)
                                                 for pattern in rule.tests)]
        if path.startswith("python/naplps") and len(by_rule) == len(tests):
            tests.update((TESTS / "tool").glob("test_*.py"))
        found |= tests
    return found
