"""The WebAssembly module of the library, naplps.wasm, by Node and by Chromium, beside the library for C.

NAPLPS_MODULE names the module; without it that of dist/browser is tried. With NAPLPS_TRIALS=full the counts are those
that docs/TRUST.md has.
"""
import json
import os
import re
import shutil
import subprocess
from pathlib import Path
from typing import Callable, Dict, Iterator, List, NamedTuple, Optional, Tuple

import pytest

from dev.fuzzing.library_tests import build
from dev.fuzzing.records import PAGE, of_changed_lists, of_streams, of_vectors, parted, record, write
from dev.judging import Answer, run
from dev.layout import TOP, sources_version
from dev.packaging.for_browsers import FOLDER, MODULE, faults_of
from dev.packaging.kept import ARCHIVE, KEPT
from dev.vectors.lines import rows
from dev.vectors.rows import Vector
from dev.vectors.wanted import wrong_answers, wrong_pages
from module_browser import answers_in_chromium
from module_faults import FAULTS, faulty, printed
from module_hostile import BUDGET, pages
from samples import need, needs_chromium

BROWSER = TOP / "browser"
TESTS = BROWSER / "module" / "tests"
COMMAND = BROWSER / "module" / "command.mjs"
NAMED = os.environ.get("NAPLPS_MODULE")
PLAIN = {name: value for name, value in os.environ.items() if name != "NAPLPS_MODULE"}
# How many seconds a run of Node may take by the clock, and one over a module with a fault; one that takes longer has
# another answer. Vectors that are longer aren't asked of a module with a fault.
PATIENCE, SOON = 36_000, 300
SHORT = 70_000
# No call of these tests may take more seconds of a processor.
LONGEST = 60
KINDS = ("vectors", "streams", "lists")
IMPORTS = ("JSON.stringify(WebAssembly.Module.imports(new WebAssembly.Module("
           "require('fs').readFileSync(process.argv[1]))))")
WRONG_WORDS = ("", "frob", "list --frob", "check page.nap", "list --hex --hex", "canon --budget", "canon --budget many",
               "canon --budget=67108865", "check --budget=-1", "make --hex", "list --hex=1", "canon --stream")
HEX = (b"0E 26 52 40 40", b"", b"0e\t26\r\n 5240 4\n0", b"18", b"80", b"0E2", b"0E 2G", b"1B 40 21")


class Counts(NamedTuple):
    """How much is tried by chance."""

    streams: int
    lists: int
    limited: int
    changed: int
    shown: int
    hostile: str
    pages: int


FULL = Counts(100_000, 20_000, 500, 1_000_000, 1_000_000, "list,canon,canonForm1,places", 1)
COUNTS = FULL if os.environ.get("NAPLPS_TRIALS") == "full" else Counts(3000, 1000, 40, 4000, 2000, "canon", 4)

# Runs a script of browser/module/tests on the module, or on another, with records.
Node = Callable[..., "subprocess.CompletedProcess[bytes]"]


@pytest.fixture(scope="session")
def module() -> Path:
    """The module, where Node can run it."""
    need("node", "nodejs")
    version = subprocess.run(["node", "--version"], stdout=subprocess.PIPE, encoding="ascii").stdout.strip()
    if int(re.sub(r"v(\d+).*", r"\1", version)) < 18:
        pytest.skip(f"Node {version} is here, and 18 or later is needed")
    path = Path(NAMED) if NAMED else FOLDER / MODULE
    if not path.is_file():
        pytest.skip(f"there is no {path}")
    return path.resolve()


@pytest.fixture(scope="session")
def node(module: Path) -> Node:
    """Runs a script of browser/module/tests on the module, or on another, with records."""
    def runs(name: str, *words: object, records: Optional[Path] = None, other: Optional[Path] = None,
             seconds: int = PATIENCE) -> "subprocess.CompletedProcess[bytes]":
        script = ["node", str(TESTS / name), str(other or module), *map(str, words)]
        with open(records or os.devnull, "rb") as source:
            try:
                return subprocess.run(script, stdin=source, stdout=subprocess.PIPE, stderr=subprocess.PIPE,
                                      timeout=seconds)
            except subprocess.TimeoutExpired as late:
                return subprocess.CompletedProcess(late.cmd, -1, late.stdout or b"", b"it took too long")
    return runs


class Records:
    """Files of records, and the answers of the library for C to them, by their names."""

    def __init__(self, folder: Path, native: Path, vectors: List[Vector]) -> None:
        self.folder, self.native, self.vectors = folder, native, vectors

    def _of(self, name: str) -> Iterator[bytes]:
        """The records that a file of this name has."""
        if name == "streams":
            return of_streams(COUNTS.streams, 1)
        if name == "lists":
            return of_changed_lists(self.vectors, COUNTS.lists, 1)
        return of_vectors([vector for vector in self.vectors if name == "vectors" or len(vector.data) < SHORT])

    def path(self, name: str) -> Path:
        """The file: vectors, the short ones of them, streams or lists."""
        path = self.folder / name
        if not path.exists():
            write(path, self._of(name))
        return path

    def answers(self, name: str) -> bytes:
        """What the library answers to them."""
        with self.path(name).open("rb") as source:
            return subprocess.run([str(self.native)], stdin=source, stdout=subprocess.PIPE, check=True).stdout


@pytest.fixture(scope="session")
def records(compiler: str, library: Path, vectors: List[Vector], tmp_path_factory: pytest.TempPathFactory) -> Records:
    """Files of records."""
    folder = tmp_path_factory.mktemp("records")
    return Records(folder, build(folder, "records", library, ["-O2"]), vectors)


def same(expected: bytes, answers: bytes) -> None:
    """Each record has to have the library's answers."""
    first, second = parted(expected), parted(answers)
    wrong = [number for number, pair in enumerate(zip(first, second)) if pair[0] != pair[1]]
    assert answers == expected, f"{len(second)} of {len(first)} records, other answers to {wrong[:10]}"


def command_of(words: str, page: bytes = b"", **env: str) -> Answer:
    """What the command of the package answers."""
    return run(["node", str(COMMAND), *words.split()], page, stdin=subprocess.PIPE, env={**os.environ, **env})


@pytest.mark.skipif(NAMED is not None, reason="NAPLPS_MODULE names another module than that of dist/browser")
def test_module_is_that_of_the_library_in_dist(module: Path) -> None:
    """The module of dist/browser is that of its MADE, and of the kept library."""
    faults = faults_of(KEPT / ARCHIVE)
    assert not faults, "; ".join(faults.values())


def test_module_asks_for_nothing(module: Path) -> None:
    """The module imports nothing of its host."""
    result = run(["node", "-p", IMPORTS, str(module)])
    assert result == Answer(0, b"[]\n"), str(result)


def test_vectors(module: Path, vectors: List[Vector]) -> None:
    """The calls of naplps.mjs answer what vectors have, and what has to hold of several calls and of pieces."""
    wrong = list(wrong_answers(["node", str(TESTS / "requests.mjs"), str(module)], vectors))
    assert not wrong, "\n".join(wrong[:10])


def test_vectors_of_lines(module: Path) -> None:
    """Lines make the pages that vectors have."""
    wrong = list(wrong_pages(["node", str(TESTS / "requests.mjs"), str(module)], list(rows())))
    assert not wrong, "\n".join(wrong[:10])


def test_finds(naplps: str, module: Path, finds: bytes) -> None:
    """The pages among other bytes are the program's."""
    expected = run([naplps, "batch"], finds, stdin=subprocess.PIPE)
    assert run(["node", str(TESTS / "requests.mjs"), str(module)], finds, stdin=subprocess.PIPE) == expected


@pytest.mark.parametrize("name", KINDS)
def test_records(node: Node, records: Records, name: str) -> None:
    """Each call has the bytes of the library, structs and texts, in Node."""
    same(records.answers(name), node("answer-records.mjs", records=records.path(name)).stdout)


@pytest.mark.browser
@needs_chromium
@pytest.mark.parametrize("name", KINDS)
def test_records_in_chromium(module: Path, records: Records, tmp_path: Path, name: str) -> None:
    """Each call has the bytes of the library, structs and texts, in Chromium."""
    same(records.answers(name), answers_in_chromium(module, records.path(name), tmp_path))


def command_trials(naplps: str) -> Iterator[Tuple[str, bytes]]:
    """Words of the command, and pages or lines."""
    for path in sorted(TOP.glob("examples/**/*.nap"))[:: COUNTS.pages]:
        page = path.read_bytes()
        for words in ("check", "list", "canon"):
            yield words, page
        yield "make", run([naplps, "list"], page, stdin=subprocess.PIPE).out
    for text in (b"BELL\nEND\n", b"BELL\r\n", b"GLYPH 21\n"):
        yield "make", text
    yield "check --budget 0", b"\x0e&R"
    for page in HEX:
        for words in ("check --hex", "list --hex", "canon --hex"):
            yield words, page


def test_command(naplps: str, module: Path) -> None:
    """The command has the program's output, errors and status."""
    for words, page in command_trials(naplps):
        expected = run([naplps, *words.split()], page, stdin=subprocess.PIPE)
        result = command_of(words, page, NAPLPS_MODULE=str(module))
        assert result == expected, f"{words}, {page[:40]!r}: wanted {expected}; got {result}"


@pytest.mark.parametrize("words", WRONG_WORDS)
def test_wrong_words_of_the_command(module: Path, words: str) -> None:
    """A command line that is none ends with the status 2 and an error."""
    result = command_of(words, NAPLPS_MODULE=str(module))
    assert (result.status, result.out) == (2, b"") and result.err.startswith(b"error: "), str(result)


def test_command_without_a_module(module: Path) -> None:
    """A file that is no module can't be loaded."""
    result = command_of("check", NAPLPS_MODULE="/dev/null")
    assert (result.status, result.out) == (3, b"") and b"can't be loaded" in result.err, str(result)


def test_misuse(node: Node) -> None:
    """What isn't bytes and what is no budget is thrown, as documented, and little memory is a refusal."""
    result = node("misuse.mjs")
    assert (result.returncode, result.stdout) == (0, b"0 wrong\n"), (result.stdout + result.stderr).decode()


@pytest.fixture(scope="module")
def package(module: Path, tmp_path_factory: pytest.TempPathFactory) -> Path:
    """The package as npm unpacks it, below a folder node_modules."""
    package = tmp_path_factory.mktemp("package") / "node_modules" / "naplps"
    for name in json.loads((BROWSER / "package.json").read_text("utf-8"))["files"]:
        (package / name).parent.mkdir(parents=True, exist_ok=True)
        if not (BROWSER / name).is_dir() and not name.endswith(".wasm"):
            shutil.copy(BROWSER / name, package / name)
    shutil.copy(module, package / "module" / "naplps.wasm")
    shutil.copy(BROWSER / "package.json", package)
    return package


def test_package_has_the_version() -> None:
    """The package has the version of the sources."""
    assert json.loads((BROWSER / "package.json").read_text("utf-8"))["version"] == sources_version()


def test_package_has_a_command(package: Path) -> None:
    """The command of the package runs where it is unpacked."""
    name = json.loads((package / "package.json").read_text("utf-8"))["bin"]["naplps"]
    result = run(["node", str(package / name), "check"], b"\x07", stdin=subprocess.PIPE, env=PLAIN)
    assert result == Answer(0, b"accepted 1 entries\n"), str(result)


def javascript_example() -> Tuple[str, bytes]:
    """The program in JavaScript of docs/LIBRARY.md, and what it prints."""
    text = (TOP / "docs" / "LIBRARY.md").read_text("utf-8")
    found = re.search(r"```js\n(.*?)```\n\nprints\n\n((?:    [^\n]*\n)+)", text, re.DOTALL)
    assert found is not None, "docs/LIBRARY.md has no example in JavaScript"
    return found[1], re.sub("^    ", "", found[2], flags=re.MULTILINE).encode()


def test_example_of_the_document(package: Path) -> None:
    """The example of docs/LIBRARY.md, with the package, prints what stands after it."""
    script, printed = javascript_example()
    script = script.replace('"./browser/module/naplps.mjs"', '"naplps"')
    example = package.parents[1] / "example.mjs"
    example.write_text(re.sub(r"load\(new URL\(.*\)\)", "load()", script), "utf-8")
    assert run(["node", str(example)], cwd=example.parent) == Answer(0, printed)


def test_example_at_the_top(module: Path, tmp_path: Path) -> None:
    """The example of docs/LIBRARY.md, at the top of a clone, prints what stands after it."""
    script, printed = javascript_example()
    for name in ("browser", "dist"):
        (tmp_path / name).symlink_to(TOP / name)
    (tmp_path / "example.mjs").write_text(script, "utf-8")
    assert run(["node", "example.mjs"], cwd=tmp_path) == Answer(0, printed)


def test_types(tmp_path: Path) -> None:
    """TypeScript finds no fault in naplps.mjs, and its types are those of naplps.d.mts."""
    need("tsc", "node-typescript")
    source = BROWSER / "module" / "naplps.mjs"
    words = ["tsc", "--allowJs", "--target", "es2022", "--module", "es2022", "--moduleResolution", "node", "--lib",
             "es2022,dom", str(source)]
    checked = run([*words, "--checkJs", "--strict", "--noEmit"])
    assert checked == Answer(0), str(checked)
    written = run([*words, "--declaration", "--emitDeclarationOnly", "--outDir", str(tmp_path)])
    assert written == Answer(0), str(written)
    types = (tmp_path / "naplps.d.mts").read_bytes()
    assert types == source.with_name("naplps.d.mts").read_bytes(), "naplps.d.mts has other types"


def numbers_of(result: "subprocess.CompletedProcess[bytes]") -> Dict[str, int]:
    """The numbers that a script of Node prints; it has to end well."""
    output = result.stdout.decode("utf-8", "replace")
    assert result.returncode == 0, f"{output[-2000:]} {result.stderr[-500:]!r}"
    numbers: Dict[str, int] = json.loads(output)
    return numbers


def test_limits(node: Node, records: Records) -> None:
    """The stack is far from its end; each growth of the heap refused is lack of memory, or the whole answer."""
    assert 0 < numbers_of(node("limits.mjs", COUNTS.limited, records=records.path("vectors")))["depth"] < 1 << 15


@pytest.mark.parametrize("script, count", [("changes.mjs", COUNTS.changed), ("shown.mjs", COUNTS.shown)])
def test_changed_pages(node: Node, records: Records, script: str, count: int) -> None:
    """Changed pages and lists, by naplps.mjs, and with changed names through what the page naplps.html does with them:
    no exception, no call that takes long, nothing in a picture or a name that can't be there."""
    assert numbers_of(node(script, count, 1, records=records.path("vectors")))["longest"] < 1000 * LONGEST


def test_hostile_pages(naplps: str, node: Node, tmp_path: Path) -> None:
    """Hostile pages have the program's answers, each in bounded time, and the module answers the next page."""
    path = tmp_path / "hostile"
    write(path, (record(PAGE, BUDGET, page) for page in pages().values()))
    result = node("hostile.mjs", COUNTS.hostile, records=path)
    lines = result.stdout.decode("utf-8", "replace").splitlines()
    assert result.returncode == 0 and len(lines) == len(pages()), result.stderr[-500:]
    for (name, page), line in zip(pages().items(), lines):
        expected = run([naplps, "check"], page, stdin=subprocess.PIPE).out.decode("ascii").rstrip()
        answer, _, seconds = line.partition(" in ")
        assert answer == expected and float(seconds) < LONGEST, f"{name}: {line}; wanted {expected}"


@pytest.fixture(scope="module")
def text_of_the_module(module: Path, tmp_path_factory: pytest.TempPathFactory) -> str:
    """The text of the module, as binaryen prints it."""
    need("wasm-dis", "binaryen")
    return printed(module, tmp_path_factory.mktemp("text"))


def test_no_fault(text_of_the_module: str, node: Node, records: Records, tmp_path: Path) -> None:
    """The module that is assembled of its own text has the library's answers."""
    changed = tmp_path / "faulty.wasm"
    faulty(text_of_the_module, lambda text: (text, 0), changed)
    same(records.answers("short"), node("answer-records.mjs", records=records.path("short"), other=changed).stdout)


@pytest.mark.parametrize("name", FAULTS)
def test_fault_is_seen(text_of_the_module: str, node: Node, records: Records, tmp_path: Path, name: str) -> None:
    """A fault that is put into the module is seen, by other answers or by none in time."""
    changed = tmp_path / "faulty.wasm"
    assert faulty(text_of_the_module, FAULTS[name], changed) > 0, "the module has nothing to change for this fault"
    result = node("answer-records.mjs", records=records.path("short"), other=changed, seconds=SOON)
    assert parted(result.stdout) != parted(records.answers("short")), "the fault isn't seen"
