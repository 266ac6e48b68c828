"""The recipes of docs/SHELL.md as they are written there, on copies of examples/pages and on pages with hostile names.

The answers to the example pages are in collections.expected, a line for each page, with tabs between page, answer, hash
and digits of the canonical bytes.
"""
import hashlib
import os
import re
import shutil
import subprocess
import tempfile
from pathlib import Path
from typing import Any, Dict, Iterator, List, NamedTuple, Optional

import pytest

from command import NOBODY
from dev.judging import Answer, run
from dev.layout import TOP
from fault_pages import LONG
from samples import has, lack
from shells import answer, with_naplps

DOCUMENT = TOP / "docs" / "SHELL.md"
PAGES = TOP / "examples" / "pages"


class Example(NamedTuple):
    """An example page: the answer to it, and the hash and the bytes of its canonical stream, if it is accepted."""

    answer: str
    hash: str
    canonical: Optional[bytes]


def examples() -> Dict[str, Example]:
    """The example pages by their names."""
    rows = (line.split("\t") for line in
            Path(__file__).with_name("collections.expected").read_text("ascii").splitlines())
    return {name: Example(text, total, None if digits == "-" else bytes.fromhex(digits))
            for name, text, total, digits in rows}


EXAMPLES = examples()
HOSTILE = [
    ("point.nap", "point.nap"),
    ("point again.nap", " two  spaces "),
    ("point.nap", "two\nlines.nap"),
    ("point again.nap", "a line end behind\n"),
    ("outside.nap", "\na line end in front"),
    ("fence.nap", "it's \"quoted\" `id`.nap"),
    ("fence by macro.nap", "'); DROP TABLE pages; --"),
    ("fence.nap", "-rf"),
    ("fence by macro.nap", "--help"),
    ("cut.nap", "-"),
    ("hello.nap", "$(echo no) ${HOME} & ; | > <"),
    ("hello.nap", "%s%d*?[a]{b}~!#"),
    ("outside.nap", "back\\slash\\n\\0"),
    ("glyph.nap", "a\ttab"),
    ("cut.nap", "an escape\x1b[31m"),
    ("point.nap", "Übersicht.nap"),
    ("empty.nap", ".hidden"),
    ("outside.nap", "0" * 240 + ".refused"),
    ("point.nap", "0" * 240 + ".nap"),
    ("old/point.nap", "a folder's name\n/-n/deep"),
]


def recipe(name: str) -> str:
    """The block of the document behind the marker of a recipe."""
    found = re.search(rf"^<!-- recipe: {name} -->\n```sh\n(.*?)^```$", DOCUMENT.read_text("utf-8"),
                      re.DOTALL | re.MULTILINE)
    assert found, f"no recipe {name} in {DOCUMENT}"
    return found[1]


def converting(text: str, other: str) -> str:
    """The recipe that converts, with another text in place of one."""
    assert text in recipe("convert"), f"the recipe convert has no {text}"
    return recipe("convert").replace(text, other)


has_parallel = b"GNU parallel" in run(["sh", "-c", "parallel --version"], stdin=subprocess.DEVNULL).out
needs_parallel = pytest.mark.skipif(not has_parallel, reason="GNU parallel isn't there")
needs_sqlite3 = pytest.mark.skipif(not has("sqlite3"), reason=lack("sqlite3"))
# As it is, as the document says to change it for long pages, and with GNU parallel in place of xargs.
CONVERTING = [
    pytest.param(recipe("convert"), id="convert"),
    pytest.param(converting("naplps canon", "naplps canon --stream"), id="streamed"),
    pytest.param(converting("xargs -0 -n 16 -P 4", "parallel -0 -q -n 16 -j 4"), id="parallel", marks=needs_parallel),
]


def files_in(folder: Path) -> Dict[str, bytes]:
    """The bytes of each file below a folder that can be read; links and pipes are left out."""
    paths = (Path(place, name) for place, _, names in os.walk(folder) for name in names)
    return {str(path.relative_to(folder)): path.read_bytes() for path in paths
            if path.is_file() and not path.is_symlink() and os.access(path, os.R_OK)}


def lines_of(text: bytes) -> List[bytes]:
    """The lines of a text, sorted."""
    assert text == b"" or text.endswith(b"\n"), f"{text!r} has no end"
    return sorted(text.split(b"\n")[:-1])


def shown(name: str) -> bytes:
    """The name of a page as the recipes print it."""
    return b"./" + re.sub(r"[\x00-\x1f\x7f]", "?", name).encode("utf-8")


class Folder:
    """A folder of example pages under other names, and what the recipes are to make of it."""

    def __init__(self, base: Path, program: str) -> None:
        self.base, self.above, self.pages = base, base / "above", base / "above" / "pages"
        self.canonical_pages, self.temporary = self.above / "canonical", base / "temporary"
        self.pages.mkdir(parents=True)
        self.temporary.mkdir()
        self.environment = {**with_naplps(program, base / "bin"), "TMPDIR": str(self.temporary)}
        self.options: Dict[str, Any] = {}
        self.examples: Dict[str, str] = {}

    def add(self, example: str, name: str) -> None:
        """Puts a copy of an example page there, under a name."""
        path = self.pages / name
        path.parent.mkdir(parents=True, exist_ok=True)
        path.write_bytes((PAGES / example).read_bytes())
        self.examples[name] = example

    def add_examples(self) -> None:
        """Puts the example pages there."""
        for name in EXAMPLES:
            self.add(name, name)

    def run(self, script: str) -> Answer:
        """Runs a recipe, which changes no page, and leaves nothing but its canonical pages or its table."""
        before = files_in(self.pages)
        result = run(["sh", "-c", script], cwd=self.pages, env=self.environment, stdin=subprocess.DEVNULL,
                     **self.options)
        assert files_in(self.pages) == before, "a page changed"
        assert {*os.listdir(self.above)} <= {"pages", "canonical", "pages.db"}, "a file is left beside the folder"
        assert os.listdir(self.temporary) == [], "a temporary file is left"
        return result

    def accepted(self) -> Dict[str, Example]:
        """The accepted pages by their names."""
        found = {name: EXAMPLES[example] for name, example in self.examples.items()}
        return {name: example for name, example in found.items() if example.canonical is not None}

    def refused(self) -> List[bytes]:
        """The lines of the refused pages."""
        return sorted(shown(name) + f": {EXAMPLES[example].answer}".encode()
                      for name, example in self.examples.items() if EXAMPLES[example].canonical is None)

    def equal(self) -> List[bytes]:
        """The lines of the pages that are equal, but spelled differently."""
        spellings: Dict[str, "set[bytes]"] = {}
        for name, example in self.accepted().items():
            spellings.setdefault(example.hash, set()).add((self.pages / name).read_bytes())
        return sorted(example.hash.encode() + b" " + shown(name) for name, example in self.accepted().items()
                      if len(spellings[example.hash]) > 1)

    def canonical(self) -> Dict[str, Optional[bytes]]:
        """The canonical pages."""
        return {name: example.canonical for name, example in self.accepted().items()}


@pytest.fixture
def empty(naplps: str, tmp_path: Path) -> Folder:
    """A folder without pages."""
    return Folder(tmp_path, naplps)


@pytest.fixture
def example_pages(empty: Folder) -> Folder:
    """A folder with the example pages."""
    empty.add_examples()
    return empty


@pytest.fixture(params=["example pages", "hostile names", "no pages"])
def folder(request: pytest.FixtureRequest, empty: Folder) -> Folder:
    """Each folder."""
    if request.param == "example pages":
        empty.add_examples()
    if request.param == "hostile names":
        for example, name in HOSTILE:
            empty.add(example, name)
        (empty.pages / "empty folder").mkdir()
        (empty.pages / "link.nap").symlink_to("point.nap")
        (empty.pages / "link to a folder").symlink_to("..")
        os.mkfifo(empty.pages / "pipe")
    return empty


def test_names() -> None:
    """The example pages are those of collections.expected."""
    assert {*files_in(PAGES)} == {*EXAMPLES}


@pytest.mark.parametrize("name", EXAMPLES)
def test_example_page(naplps: str, name: str) -> None:
    """An example page is short, and has its answer and its canonical bytes, which have their hash."""
    data, example = (PAGES / name).read_bytes(), EXAMPLES[name]
    assert len(data) < 200
    assert answer(naplps, "check", data).out.decode("ascii") == f"{example.answer}\n"
    assert answer(naplps, "canon", data).out == (example.canonical or b"")
    if example.canonical is not None:
        assert hashlib.sha256(example.canonical).hexdigest() == example.hash


def test_table_of_the_document() -> None:
    """The document tells the answers to the example pages."""
    text = DOCUMENT.read_text("utf-8").partition("\n## The example pages\n")[2]
    rows = re.findall(r"^\| `(.*)` \| .* \| (.*) \|$", text, re.MULTILINE)
    expected = {name: re.sub("^1 entries$", "1 entry", example.answer.replace("accepted ", ""))
                for name, example in EXAMPLES.items()}
    assert sorted(rows) == sorted(expected.items())


def test_refusals_of_the_document() -> None:
    """The document shows the refusals of the example pages."""
    found = re.findall(r"^    (\./.*: refused .*)$", DOCUMENT.read_text("utf-8"), re.MULTILINE)
    assert sorted(found) == [f"./{name}: {example.answer}" for name, example in sorted(EXAMPLES.items())
                             if example.canonical is None]


def test_refused(folder: Folder) -> None:
    """The recipe prints the refused pages, and nothing else."""
    result = folder.run(recipe("refused"))
    assert (lines_of(result.out), result.err) == (folder.refused(), b"")


def test_equal(folder: Folder) -> None:
    """The recipe prints the equal pages, each set together, and reports the others."""
    result = folder.run(recipe("equal"))
    assert (lines_of(result.out), lines_of(result.err)) == (folder.equal(), folder.refused())
    hashes = [line.split(b" ")[0] for line in result.out.split(b"\n")[:-1]]
    sets = [total for index, total in enumerate(hashes) if hashes[index - 1 : index] != [total]]
    assert len(sets) == len({*sets}), "a set stands apart"


@pytest.mark.parametrize("script", CONVERTING)
def test_converted(folder: Folder, script: str) -> None:
    """A recipe makes the canonical pages, once, and reports the others."""
    result = folder.run(script)
    assert (result.out, lines_of(result.err)) == (b"", folder.refused())
    assert files_in(folder.canonical_pages) == folder.canonical()
    assert folder.run(script).status != 0, "it converted twice"


@needs_sqlite3
def test_table(folder: Folder) -> None:
    """The recipe makes the table of pages, anew each time, and reports the others."""
    expected = sorted(f"{os.fsencode('./' + name).hex()}|{example.hash}|{example.answer.split()[1]}".encode()
                      for name, example in folder.accepted().items())
    for _ in range(2):
        result = folder.run(recipe("table"))
        assert (result.out, lines_of(result.err)) == (b"", folder.refused())
        query = "SELECT lower(hex(page)), hash, entries FROM pages"
        assert lines_of(run(["sqlite3", "-batch", str(folder.above / "pages.db"), query]).out) == expected


@needs_sqlite3
def test_questions(example_pages: Folder) -> None:
    """The two questions to the table print the pages in it, and the equal ones."""
    example_pages.run(recipe("table"))
    rows = sorted(f"{example.hash}|{example.answer.split()[1]}|./{name}".encode()
                  for name, example in example_pages.accepted().items())
    assert lines_of(example_pages.run(recipe("table-shown")).out) == rows
    equal = [line.replace(b" ", b"|", 1) for line in example_pages.equal()]
    assert lines_of(example_pages.run(recipe("table-equal")).out) == equal


@pytest.mark.parametrize("script", CONVERTING)
def test_long_page(empty: Folder, script: str) -> None:
    """A page of many reads and writes is converted, and one that is refused after its last byte is reported."""
    (empty.pages / "long.nap").write_bytes(LONG.stream)
    (empty.pages / "cut.nap").write_bytes(LONG.stream + b"\x1b")
    result = empty.run(script)
    assert (result.out, result.err) == (b"", b"./cut.nap: refused 19 Cut at 120002\n")
    assert files_in(empty.canonical_pages) == {"long.nap": LONG.canonical}


@pytest.fixture
def locked(naplps: str) -> Iterator[Folder]:
    """A folder of a user, with a page and a folder that this user can't read. (pytest closes the folders of its own to
    others at each start.)"""
    with tempfile.TemporaryDirectory() as base:
        os.chmod(base, 0o755)
        folder = Folder(Path(base), naplps)
        for name in ("point.nap", "point again.nap"):
            folder.add(name, name)
        if os.geteuid() == 0:
            (folder.base / "bin" / "naplps").unlink()
            shutil.copy(naplps, folder.base / "bin" / "naplps")
            for path in (folder.above, folder.pages, folder.temporary):
                os.chown(path, NOBODY, NOBODY)
            folder.options = {"user": NOBODY, "group": NOBODY, "extra_groups": []}
        (folder.pages / "locked page.nap").write_bytes(b"")
        (folder.pages / "locked folder").mkdir()
        for name in ("locked page.nap", "locked folder"):
            (folder.pages / name).chmod(0)
        yield folder
        (folder.pages / "locked folder").chmod(0o700)


@pytest.mark.parametrize("script", [
    pytest.param(recipe("refused"), id="refused"), pytest.param(recipe("equal"), id="equal"), *CONVERTING,
    pytest.param(recipe("table"), id="table", marks=needs_sqlite3)])
def test_unreadable(locked: Folder, script: str) -> None:
    """Pages and a folder that can't be read are reported by each recipe, and the others are as before."""
    result = locked.run(script)
    assert re.search(rb"^\./locked page\.nap: .*ermission denied", result.out + result.err, re.MULTILINE), f"{result}"
    assert re.search(rb"locked folder.*ermission denied", result.err), f"{result}"
    if script == recipe("equal"):
        assert lines_of(result.out) == locked.equal()
    if locked.canonical_pages.exists():
        assert files_in(locked.canonical_pages) == locked.canonical()


@pytest.fixture
def broken(empty: Folder) -> Folder:
    """A folder with a page, for a program that isn't there."""
    empty.add("point.nap", "point.nap")
    program = empty.base / "bin" / "naplps"
    program.unlink()
    program.write_text("#!/bin/sh\nexec /nonexistent/none \"$@\"\n", "ascii")
    program.chmod(0o755)
    return empty


def test_no_program(broken: Folder) -> None:
    """A program that answers nothing is reported for each page."""
    assert re.search(rb"^\./point\.nap: .*none", broken.run(recipe("refused")).out)


@pytest.mark.parametrize("script", CONVERTING)
def test_no_canonical_page(broken: Folder, script: str) -> None:
    """Of a program that answers nothing there is no canonical page."""
    assert b"./point.nap: " in broken.run(script).err
    assert files_in(broken.canonical_pages) == {}
