"""The packages in a bare folder, and what scripts/install puts under a prefix: both commands, the module and the
library work from there, and all goes away again."""
import shutil
import subprocess
from pathlib import Path
from typing import Dict, List, NamedTuple, Set, Tuple

import pytest

from debs import CLEAN, FOUND_BY_PYTHON, MULTIARCH, NAMES, Parts, contents, expected_of_program, ordinary_user
from dev.judging import Answer, run
from dev.layout import SONAME, TOP, sources_version

INSTALL = str(TOP / "scripts" / "install")
POINT = b"\x0e\x26\x52"
POINT_LINE = b"POINT 4194304,4194304 pel=0,0 colour=own-start\n"
CANON = bytes.fromhex("0e215f265240404040404040")
# Words of both commands, the page that they read, and what they print: @ is the folder of the gallery.
COMMANDS: Tuple[Tuple[str, bytes, bytes], ...] = (
    ("naplps --version", b"", f"naplps {sources_version()}, canonical form 2\n".encode()),
    ("naplps list", b"\x0e\x26\x52\x40\x40", POINT_LINE),
    ("naplps check", POINT, b"accepted 1 entries\n"),
    ("naplps canon", b"\x0e\x27\x52", CANON),
    ("naplps batch", b"canon 0 3\n\x0e\x27\x52", b"accepted 1 entries\n12\n" + CANON),
    ("naplps-pages --version", b"", f"naplps-pages {sources_version()}\n".encode()),
    ("naplps-pages check -", POINT, b"accepted 1 entries\n"),
    ("naplps-pages show @/logo.nap", b"", (TOP / "examples" / "gallery" / "logo.nap.svg").read_bytes()),
)


class Place(NamedTuple):
    """Where something is installed: the prefix, and the folders of the library and of the module."""

    prefix: Path
    library: Path
    module: Path


def listing(folder: Path) -> Set[Tuple[str, int, bytes]]:
    """Each name below a folder but dpkg's own, with its mode and its bytes."""
    found = set()
    for path in folder.rglob("*"):
        name = path.relative_to(folder).as_posix()
        if not name.startswith("var/lib/dpkg"):
            found.add((name, path.lstat().st_mode, path.read_bytes() if path.is_file() else b""))
    return found


def bare_root(folder: Path) -> Path:
    """A folder in which dpkg knows of nothing."""
    for name in ("info", "updates", "triggers"):
        (folder / "var" / "lib" / "dpkg" / name).mkdir(parents=True)
    for name in ("status", "available"):
        (folder / "var" / "lib" / "dpkg" / name).touch()
    return folder


def dpkg(root: Path, *words: str) -> None:
    """Runs dpkg on a bare folder: it writes nothing elsewhere, and leaves out no files."""
    forced = ["--force-depends", "--force-not-root", "--log=/dev/null", "--path-include=/*"]
    result = run(["dpkg", f"--root={root}", *forced, *words], env=CLEAN, stderr=subprocess.STDOUT)
    assert result.status == 0, f"dpkg {words[0]}: {result.out.decode('utf-8', 'replace')}"


def run_as_root(prefix: Path) -> None:
    """Runs naplps-pages as whoever runs the tests, which could write beside it."""
    env = {name: text for name, text in CLEAN.items() if name != "PYTHONDONTWRITEBYTECODE"}
    run([str(prefix / "bin" / "naplps-pages"), "check", "-"], POINT, stdin=subprocess.PIPE, env=env)


@pytest.fixture(scope="module", params=["packages", "scripts/install"])
def place(request: pytest.FixtureRequest, open_folder: Path, parts: Parts) -> Place:
    """A place where the packages, or what scripts/install puts there, are installed."""
    if request.param == "packages":
        packages: List[Path] = request.getfixturevalue("packages")
        root = bare_root(open_folder / "root")
        dpkg(root, "--install", *map(str, packages))
        return Place(root / "usr", root / MULTIARCH, root / FOUND_BY_PYTHON)
    prefix = open_folder / "prefix, with blanks"
    result = run([INSTALL, str(prefix)], env={**CLEAN, **parts.settings()})
    assert result.status == 0, result
    return Place(prefix, prefix / "lib", prefix / "lib" / "naplps")


@pytest.mark.parametrize("words, page, output", COMMANDS, ids=[words for words, _, _ in COMMANDS])
def test_command_answers_an_ordinary_user(place: Place, words: str, page: bytes, output: bytes) -> None:
    """The command runs from where it was installed."""
    gallery = str(place.prefix / "share" / "doc" / "naplps" / "examples" / "gallery")
    command, *rest = words.split()
    result = run([str(place.prefix / "bin" / command), *(word.replace("@", gallery) for word in rest)], page,
                 stdin=subprocess.PIPE, env=CLEAN, cwd="/", **ordinary_user())
    assert result == Answer(0, output), str(result)


def test_module_answers_an_ordinary_user(place: Place) -> None:
    """The module is taken from where python3 finds it, which on Debian is a folder of its own."""
    lines = "import naplps; print(naplps.check(bytes.fromhex('0E2652')), naplps.__file__)"
    result = run(["/usr/bin/python3", "-B", "-c", lines], env={**CLEAN, "PYTHONPATH": str(place.module)}, cwd="/",
                 **ordinary_user())
    assert result == Answer(0, f"1 {place.module}/naplps/__init__.py\n".encode()), str(result)


@pytest.mark.parametrize("kind", ["shared", "static"])
def test_example_is_built_with_the_library(place: Place, kind: str, tmp_path: Path) -> None:
    """The example in C is built with what is installed, and lists a page."""
    compiler = shutil.which("cc", path=CLEAN["PATH"])
    if compiler is None:
        pytest.skip("cc isn't there (Debian: apt-get install gcc libc6-dev)")
    page, example = tmp_path / "point.nap", str(tmp_path / "entries")
    page.write_bytes(POINT)
    linked = ["-L", str(place.library), "-lnaplps"] if kind == "shared" else [str(place.library / "libnaplps.a")]
    source = str(TOP / "examples" / "c" / "entries.c")
    result = run([compiler, "-I", str(place.prefix / "include"), "-o", example, source, *linked], env=CLEAN)
    assert result == Answer(0), str(result)
    result = run([example, str(page)], env={**CLEAN, "LD_LIBRARY_PATH": str(place.library)})
    assert result == Answer(0, POINT_LINE), str(result)


def test_packages_go_away_again(packages: List[Path], tmp_path: Path) -> None:
    """A run changes nothing that is installed, and the packages leave no trace."""
    root = bare_root(tmp_path)
    before = listing(root)
    dpkg(root, "--install", *map(str, packages))
    there = listing(root)
    names = {name for package in packages for name in contents(package)}
    assert names <= {name for name, _, _ in there}, "not all files are installed"
    run_as_root(root / "usr")
    assert listing(root) == there, "a run changed what is installed"
    for name in NAMES:
        dpkg(root, "--verify", name)
    dpkg(root, "--purge", *NAMES)
    assert not listing(root) - before, "something is left behind"
    assert not list((root / "var/lib/dpkg/info").glob("*naplps*")), "dpkg still knows of it"


def expected_of_install(parts: Parts) -> Set[str]:
    """Each file that scripts/install puts under a prefix: those of the packages, but for what is Debian's."""
    names = {name[len("usr/"):] for name in expected_of_program(parts.program)}
    names = {name[:-len(".gz")] if name.endswith(".1.gz") else name for name in names}
    names = {name.replace("zsh/vendor-completions", "zsh/site-functions") for name in names}
    libraries = {f"lib/{name}" for name in ("libnaplps.a", SONAME, "libnaplps.so")}
    return names | libraries | {"lib/naplps/installed", "include/naplps.h", "lib/pkgconfig/naplps.pc"}


def test_install_goes_away_again(parts: Parts, tmp_path: Path) -> None:
    """scripts/install puts the files of the packages under a prefix, a second time too, and takes them away again."""
    prefix = tmp_path / "prefix, with blanks"
    (prefix / "bin").mkdir(parents=True)
    (prefix / "bin" / "other").write_bytes(b"stays")
    before = listing(prefix)
    for _ in range(2):
        result = run([INSTALL, str(prefix)], env={**CLEAN, **parts.settings()})
        output = f"naplps {sources_version()} is installed under {prefix}\n".encode()
        assert result == Answer(0, output), str(result)
    names = {name for name, mode, _ in listing(prefix) if mode & 0o100000}
    expected = {*expected_of_install(parts), "bin/other"}
    assert names == expected, f"the files differ: {sorted(names ^ expected)}"
    files: Dict[str, bytes] = {name: data for name, _, data in listing(prefix)}
    assert files["bin/naplps"] == parts.program.read_bytes()
    run_as_root(prefix)
    result = run([INSTALL, "--remove", str(prefix)], env=CLEAN)
    assert result == Answer(0, f"naplps is removed from {prefix}\n".encode()), str(result)
    assert listing(prefix) == before, "something is left behind"
    assert run([INSTALL, "--remove", str(prefix)], env=CLEAN).status == 1, "a second --remove has the status 0"
