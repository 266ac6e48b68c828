"""Which files an installed copy has, and where each of them stands under its prefix."""
import os
import re
import shutil
import subprocess
import sys
import tempfile
from pathlib import Path
from typing import Dict, NamedTuple

TOP = Path(__file__).resolve().parents[1]
DOCUMENTS = "share/doc/naplps"
LIBRARY = TOP / "library"
SONAME = "libnaplps.so.0"
# The status of a script that can't do its work here, since a tool isn't there.
UNTRIED = 77


class Rule(NamedTuple):
    """Files of a folder of the tree, by a pattern, and the folder under the prefix to which they go."""

    base: str
    pattern: str
    to: str
    mode: int = 0o644


class File(NamedTuple):
    """What stands in a file, and its mode. Of a link, whose mode is LINK, it is the name to which it leads."""

    data: bytes
    mode: int


LINK = 0o120777


class Places(NamedTuple):
    """Where a library stands under a prefix: the folders of its own files, of the header and of the file for
    pkg-config, with slashes after it; and that prefix, as this file tells it."""

    own: str
    header: str
    config: str
    prefix: str


# Beside one another; and under a prefix that may be anywhere.
TOGETHER = Places("", "", "", "${pcfiledir}")
INSTALLED = Places("lib/", "include/", "lib/pkgconfig/", "${pcfiledir}/../..")


RULES = (
    Rule("pages", "naplps-pages", "bin", 0o755),
    Rule("python", "naplps_pages/**/*", "lib/naplps"),
    Rule(".", "VERSION", "lib/naplps/naplps"),
    Rule("python", "naplps/**/*", "lib/naplps"),
    Rule("man", "*.1", "share/man/man1"),
    Rule(".", "*.md", DOCUMENTS),
    Rule(".", "docs/**/*", DOCUMENTS),
    Rule(".", "examples/**/*", DOCUMENTS),
)
COMPLETIONS = {
    place: to
    for name in ("naplps", "naplps-pages")
    for place, to in {
        f"{name}.bash": f"share/bash-completion/completions/{name}",
        f"_{name}": f"share/zsh/site-functions/_{name}",
        f"{name}.fish": f"share/fish/vendor_completions.d/{name}.fish",
    }.items()
}


def stop(why: str) -> "SystemExit":
    """What to raise where a script can't continue."""
    return SystemExit(f"{Path(sys.argv[0]).name}: {why}")


def find_program() -> Path:
    """The program that NAPLPS names, or the one that the launcher runs, which it builds where it has to."""
    named = os.environ.get("NAPLPS")
    if named is None:
        launcher = TOP / "naplps"
        if subprocess.run([launcher, "--version"], stdout=subprocess.DEVNULL).returncode:
            raise stop(f"{launcher} has no program")
        told = {**os.environ, "NAPLPS_WHERE": "1"}
        said = subprocess.run([launcher], env=told, stdout=subprocess.PIPE, check=True, encoding="utf-8")
        return Path(said.stdout.rstrip("\n"))
    path = shutil.which(named)
    if path is None or not Path(path).read_bytes().startswith(b"\x7fELF"):
        raise stop(f"NAPLPS names no program file: {named}")
    return Path(path)


def sources_version() -> str:
    """The version of the sources, as the file VERSION has it."""
    return (TOP / "VERSION").read_text("ascii").strip()


def version_of(program: Path) -> str:
    """The version of the sources, which the program has to print."""
    version = sources_version()
    said = subprocess.run([program, "--version"], stdout=subprocess.PIPE, check=True).stdout.decode("ascii")
    if not re.fullmatch(rf"naplps {re.escape(version)}, canonical form \d+\n", said):
        raise stop(f"these sources have the version {version}, but {program} says {said!r}")
    return version


class Untried(Exception):
    """What is asked for can't be made here, and why."""


def find_library() -> Path:
    """The folder of the library that NAPLPS_LIBRARY names, or the one that library/make-library makes; raises
    Untried."""
    named = os.environ.get("NAPLPS_LIBRARY")
    if named is None:
        words = [LIBRARY / "make-library"]
        said = subprocess.run(words, stdout=subprocess.DEVNULL, stderr=subprocess.PIPE, encoding="utf-8")
        if said.returncode == UNTRIED:
            raise Untried(said.stderr.strip().partition("library: ")[2])
        print(said.stderr, end="", file=sys.stderr)
        if said.returncode:
            raise stop("library/make-library made no library")
        return TOP / "out"
    if not (Path(named) / SONAME).is_file():
        raise stop(f"NAPLPS_LIBRARY names no folder with a library: {named}")
    return Path(named)


def library_files(folder: Path, version: str, places: Places = TOGETHER) -> Dict[str, File]:
    """Each file of a library that a folder has, by its path under the prefix."""
    folders = {"libdir": f"${{prefix}}/{places.own}", "includedir": f"${{prefix}}/{places.header}"}
    config = (LIBRARY / "naplps.pc").read_text("ascii")
    for name, text in {"prefix": places.prefix, **folders, "version": version}.items():
        config = config.replace(f"@{name}@", text.rstrip("/"))
    return {
        f"{places.own}libnaplps.a": File((folder / "libnaplps.a").read_bytes(), 0o644),
        f"{places.own}{SONAME}": File((folder / SONAME).read_bytes(), 0o644),
        f"{places.own}libnaplps.so": File(SONAME.encode(), LINK),
        f"{places.header}naplps.h": File((LIBRARY / "naplps.h").read_bytes(), 0o644),
        f"{places.config}naplps.pc": File(config.encode(), 0o644),
    }


def manual_page(text: bytes) -> bytes:
    """A manual page as it is installed: its last line tells the version."""
    return text.replace(b"\n.Os\n", f"\n.Os naplps {sources_version()}\n".encode(), 1)


def files_of(program: Path) -> Dict[str, File]:
    """Each file by its path under the prefix."""
    found = {"bin/naplps": File(program.read_bytes(), 0o755)}
    for rule in RULES:
        base = TOP / rule.base
        for path in base.glob(rule.pattern):
            if not path.is_file() or path.suffix == ".pyc":
                continue
            data = path.read_bytes()
            if rule.base == "man":
                data = manual_page(data)
            found[f"{rule.to}/{path.relative_to(base).as_posix()}"] = File(data, rule.mode)
    for name, to in COMPLETIONS.items():
        found[to] = File((TOP / "completions" / name).read_bytes(), 0o644)
    return found


def make_folder(folder: Path) -> None:
    """Makes a folder and those above it that aren't there, open to all whatever the mask is."""
    if not folder.is_dir():
        make_folder(folder.parent)
        folder.mkdir(exist_ok=True)
        folder.chmod(0o755)


def write_files(folder: Path, files: Dict[str, File]) -> None:
    """Writes the files below a folder, with their modes whatever the mask is; one that stands there is replaced."""
    for name, file in files.items():
        path = folder / name
        make_folder(path.parent)
        with tempfile.TemporaryDirectory(prefix=".naplps-", dir=path.parent) as beside:
            fresh = Path(beside, path.name)
            if file.mode == LINK:
                fresh.symlink_to(file.data.decode())
            else:
                fresh.write_bytes(file.data)
                fresh.chmod(file.mode)
            fresh.replace(path)
