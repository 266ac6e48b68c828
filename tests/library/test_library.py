"""The library for C: its names, its header, known answers, threads, vectors, streams and lines by chance, examples.

Programs in C beside this file call it, linked with the static and with the shared library, and run under
AddressSanitizer and under valgrind.
"""
import os
import re
import subprocess
import sys
from pathlib import Path
from typing import Callable, Dict, List, Tuple

import pytest

from dev.fuzzing.library_tests import WRAPPED, build, linked_symbols
from dev.judging import Answer, run
from dev.layout import LIBRARY, SONAME, TOP
from dev.vectors.lines import rows
from dev.vectors.rows import Vector
from dev.vectors.wanted import wrong_answers, wrong_pages
from samples import need

SANITIZED = ["-O1", "-fsanitize=address,undefined", "-fno-sanitize-recover=all"]
VALGRIND = ["valgrind", "--quiet", "--error-exitcode=9", "--leak-check=full"]
KINDS = ("static", "shared", "AddressSanitizer", "valgrind")
# Of so many vectors the slower kinds try one.
STEPS = {"AddressSanitizer": 4, "valgrind": 40}
# What the library takes from the C library.
FROM_LIBC = {"malloc", "realloc", "free", "memcpy", "memmove", "memset"}
# What linkers put into each shared object.
WEAK = {"__cxa_finalize", "__gmon_start__", "_ITM_deregisterTMCloneTable", "_ITM_registerTMCloneTable"}
HEADERS = (
    ["cc", "-std=c99"],
    ["cc", "-std=c17"],
    ["c++", "-xc++", "-std=c++11"],
    ["clang", "-std=c11", "-Weverything", "-Wno-unused-macros"],
)
DECLARED = re.compile(r"^(?:struct naplps_\w+|bool|void) (naplps_\w+)\(", re.MULTILINE)

# The words that run a program in C, by its name and how it is run.
Command = Callable[..., List[str]]


def listed_names() -> List[str]:
    """The names of the library that are seen from outside."""
    return (LIBRARY / "naplps.symbols").read_text("ascii").split()


def header() -> str:
    """The text of the header."""
    return (LIBRARY / "naplps.h").read_text("ascii")


def output_of(*words: str) -> str:
    """What a command prints."""
    return subprocess.run(words, stdout=subprocess.PIPE, check=True, encoding="utf-8").stdout


@pytest.fixture(scope="session")
def command(compiler: str, library: Path, tmp_path_factory: pytest.TempPathFactory) -> Command:
    """Builds a program in C, once for each way to run it."""
    folder = tmp_path_factory.mktemp("programs")
    built: Dict[Tuple[str, str], List[str]] = {}

    def words(name: str, kind: str, *options: str) -> List[str]:
        if kind == "AddressSanitizer":
            probe = [compiler, *SANITIZED, "-xc", "-o", str(folder / "probe"), "-"]
            if run(probe, b"int main(void) { return 0; }", stdin=subprocess.PIPE).status:
                pytest.skip("cc has no AddressSanitizer")
        if kind == "valgrind":
            need("valgrind", "valgrind")
            return [*VALGRIND, *words(name, "static", *options)]
        if (name, kind) not in built:
            chosen = SANITIZED if kind == "AddressSanitizer" else ["-O2"]
            program = build(folder, name, library, [*chosen, *options], shared=kind == "shared")
            built[name, kind] = [str(program)]
        return built[name, kind]
    return words


def prints(words: List[str], pattern: str) -> None:
    """A program has to end well, and to print what a pattern matches."""
    result = run(words, env={**os.environ, "ASAN_OPTIONS": "detect_leaks=1"})
    assert result.status == 0 and re.fullmatch(pattern.encode(), result.out), f"{words}: {result}"


def test_list_of_names() -> None:
    """The list is sorted, and has the calls that the header declares."""
    names = listed_names()
    assert names == sorted(set(names)), "naplps.symbols isn't sorted"
    assert sorted(DECLARED.findall(header())) == names, "naplps.h declares other calls than naplps.symbols has"


@pytest.mark.parametrize("name, options, allowed", [
    (SONAME, ["-D"], FROM_LIBC | WEAK), ("libnaplps.a", ["-g"], FROM_LIBC)], ids=["shared", "static"])
def test_names(library: Path, name: str, options: List[str], allowed: "set[str]") -> None:
    """Both forms of the library have the names of the list, and no others, and ask for few."""
    need("nm", "binutils")
    defined = set(linked_symbols(library / name, *options, "--defined-only")) - {"NAPLPS_0"}
    assert defined == set(listed_names()), f"{name} has other names"
    wanted = set(linked_symbols(library / name, "-u", *(["-D"] if name == SONAME else [])))
    assert wanted <= allowed, f"{name} asks for {sorted(wanted - allowed)}"


def test_shape_of_the_shared_library(library: Path) -> None:
    """It has its name, wants libc alone, and needs no relocation of its code, no code on the stack, no data."""
    need("readelf", "binutils")
    shared = str(library / SONAME)
    dynamic = output_of("readelf", "-dW", shared)
    needed = sorted(re.findall(r"\((NEEDED|SONAME)\).*\[(.*)\]", dynamic))
    assert needed == [("NEEDED", "libc.so.6"), ("SONAME", SONAME)]
    assert "TEXTREL" not in dynamic, "its code is relocated"
    stack = re.search(r"GNU_STACK.* (R\w*) ", output_of("readelf", "-lW", shared))
    assert stack is not None and "E" not in stack[1], "its stack may hold code"
    # What .data.rel.ro has is written by the loader alone.
    sections = output_of("readelf", "-SW", shared)
    written = re.findall(r"\] (\.(?:data|bss)\b(?!\.rel\.ro)\S*) +\w+ +\w+ +\w+ (\w+)", sections)
    assert all(int(size, 16) <= 16 for _, size in written), f"it has data of its own: {written}"


@pytest.mark.parametrize("words", HEADERS, ids=" ".join)
def test_header_compiles(words: List[str]) -> None:
    """The header is one of C and of C++."""
    need(words[0], {"cc": "gcc", "c++": "g++"}.get(words[0], words[0]))
    checked = run([*words, "-Wall", "-Wextra", "-Wpedantic", "-Werror", "-fsyntax-only", str(LIBRARY / "naplps.h")])
    assert checked == Answer(0), str(checked)


def test_header_has_the_numbers_of_the_profile() -> None:
    """The header names each refusal by the number that docs/PROFILE.md has, and the budgets."""
    profile = (TOP / "docs" / "PROFILE.md").read_text("utf-8")
    table = profile[profile.index("## Refusals") : profile.index("## Limits")]
    entries = re.findall(r"^\| (\d+) \| (\w+) \|", table, re.MULTILINE)
    expected = {re.sub(r"(?<!^)(?=[A-Z])", "_", name).upper(): number for number, name in entries if name != "Sink"}
    refusals = header().partition("enum naplps_refusal")[2].partition("}")[0]
    assert dict(re.findall(r"NAPLPS_(\w+) = (\d+)", refusals)) == expected
    assert re.findall(r"#define NAPLPS_BUDGET_\w+ (\d+)u", header()) == ["1048576", "67108864"]


@pytest.mark.parametrize("kind", KINDS)
def test_known_answers(command: Command, kind: str) -> None:
    """Pages that are known have the answers that are known."""
    prints(command("answers", kind), r"\d+ answers\n")


@pytest.mark.parametrize("kind", KINDS[:3])
def test_eight_threads(command: Command, kind: str) -> None:
    """Calls of eight threads at once have the answers of one."""
    prints(command("threads", kind, "-pthread"), r"\d+ calls by 8 threads, 0 wrong\n")


def test_refused_memory(command: Command) -> None:
    """Each call of the allocator is refused in turn: the answer is the whole one, or lack of memory."""
    pages = sorted(map(str, (TOP / "examples" / "gallery").glob("*.nap")))
    prints([*command("heap", "static", *WRAPPED), *pages], r"\d+ runs, of which \d+ lacked memory\n")


@pytest.mark.parametrize("kind", KINDS)
def test_vectors(command: Command, vectors: List[Vector], kind: str) -> None:
    """The calls answer what vectors have."""
    wrong = list(wrong_answers(command("requests", kind), vectors[:: STEPS.get(kind, 1)]))
    assert not wrong, "\n".join(wrong[:10])


@pytest.mark.parametrize("kind", KINDS)
def test_vectors_of_lines(command: Command, kind: str) -> None:
    """Lines make the pages that vectors have."""
    wrong = list(wrong_pages(command("requests", kind), list(rows())[:: STEPS.get(kind, 1)]))
    assert not wrong, "\n".join(wrong[:10])


@pytest.mark.parametrize("kind", KINDS)
def test_finds(command: Command, naplps: str, finds: bytes, kind: str) -> None:
    """The pages among other bytes are the program's."""
    expected = run([naplps, "batch"], finds, stdin=subprocess.PIPE)
    assert expected.out.startswith(b"found ")
    assert run(command("requests", kind), finds, stdin=subprocess.PIPE) == expected


@pytest.mark.parametrize("name, option, count", [
    ("fuzz_library", "--streams", "6000"), ("fuzz_lines", "--inputs", "20000")], ids=["streams", "lines"])
def test_fuzzing(compiler: str, naplps: str, library: Path, name: str, option: str, count: str) -> None:
    """Streams by chance have the program's answers, and lines by chance those of a model of `make`."""
    env = {**os.environ, "NAPLPS": naplps, "NAPLPS_LIBRARY": str(library)}
    result = run([sys.executable, "-m", f"dev.{name}", option, count], cwd=TOP, env=env)
    output = (result.out + result.err)[-2000:].decode("utf-8", "replace")
    assert result.status == 0 and output.endswith(f"\n{count} passed, 0 failed\n"), output


@pytest.mark.parametrize("kind", ["static", "shared"])
def test_example(compiler: str, naplps: str, library: Path, tmp_path: Path, kind: str) -> None:
    """The example lists a page as the program does, tells of a refusal, and of a file that can't be read."""
    page, refused = TOP / "examples" / "page.nap", tmp_path / "refused.nap"
    refused.write_bytes(b"\x0e\x26\x52\x80")
    linked = [str(library / "libnaplps.a")] if kind == "static" else [
        "-L", str(library), "-lnaplps", f"-Wl,-rpath,{library}"]
    example, source = str(tmp_path / "entries"), str(TOP / "examples" / "c" / "entries.c")
    words = [compiler, "-std=c99", "-Wall", "-Wextra", "-I", str(LIBRARY), "-o", example, source, *linked]
    compiled = run(words)
    assert compiled == Answer(0), str(compiled)
    expected = run([naplps, "list"], page.read_bytes(), stdin=subprocess.PIPE)
    assert expected.status == 0 and run([example, str(page)]) == expected
    errors = f"{refused}: refused 1 EighthBit at 3\n{tmp_path}: it can't be read\n".encode()
    result = run([example, str(refused), str(page), str(tmp_path)])
    assert result == Answer(1, expected.out, errors), str(result)


def test_program_of_the_document(compiler: str, library: Path, tmp_path: Path) -> None:
    """The program of docs/LIBRARY.md is built as it says there, and lists its page."""
    need("pkg-config", "pkgconf")
    text = (TOP / "docs" / "LIBRARY.md").read_text("utf-8")
    blocks = re.findall(r"```c\n(.*?)```", text, re.DOTALL)
    lines = re.findall(r"^    (cc .*pkg-config.*)$", text, re.MULTILINE)
    assert len(blocks) == 1 == len(lines), "docs/LIBRARY.md has one program, and a line that builds it"
    (tmp_path / "list.c").write_text(blocks[0], "utf-8")
    env = {**os.environ, "PKG_CONFIG_PATH": str(library), "LD_LIBRARY_PATH": str(library)}
    compiled = run(["sh", "-c", lines[0]], cwd=tmp_path, env=env)
    assert compiled == Answer(0), f"{lines[0]}: {compiled}"
    result = run(["./list"], cwd=tmp_path, env=env)
    assert result == Answer(0, b"POINT 4194304,4194304 pel=0,0 colour=own-start\n"), str(result)


@pytest.mark.slow
def test_make_portable(compiler: str, library: Path, tmp_path: Path) -> None:
    """The library as C for any compiler has the library's answers."""
    need("wasm2c", "wabt")
    env = {**os.environ, "NAPLPS_LIBRARY": str(library)}
    result = run([str(LIBRARY / "make-portable"), str(tmp_path / "portable"), "--try"], env=env)
    assert result.status == 0, str(result)
