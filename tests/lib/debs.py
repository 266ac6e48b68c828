"""The Debian packages, made in copies of the sources, and what is in them."""
import gzip
import io
import os
import shutil
import subprocess
import tarfile
from pathlib import Path
from typing import Any, Dict, List, NamedTuple

from command import NOBODY
from dev.layout import TOP

NAMES = ("naplps", "libnaplps0", "libnaplps-dev")
DOCUMENTS = "usr/share/doc/naplps"
MULTIARCH = "usr/lib/x86_64-linux-gnu"
FOUND_BY_PYTHON = "usr/lib/python3/dist-packages"
MODULES = ("naplps", "naplps_pages")
CLEAN = {"PATH": "/usr/sbin:/usr/bin:/sbin:/bin", "HOME": "/nonexistent", "PYTHONDONTWRITEBYTECODE": "1"}
SOURCES = ("dev", "debian", "pages", "python", "man", "completions", "docs", "examples", "library")
# What stands elsewhere under /usr than its source would say: its mode, and that source.
PLACES = {
    "usr/bin/naplps-pages": (0o755, "pages/naplps-pages"),
    "usr/lib/naplps/naplps/VERSION": (0o644, "VERSION"),
    "usr/share/man/man1/naplps.1.gz": (0o644, "man/naplps.1"),
    "usr/share/man/man1/naplps-pages.1.gz": (0o644, "man/naplps-pages.1"),
    "usr/share/bash-completion/completions/naplps": (0o644, "completions/naplps.bash"),
    "usr/share/zsh/vendor-completions/_naplps": (0o644, "completions/_naplps"),
    "usr/share/fish/vendor_completions.d/naplps.fish": (0o644, "completions/naplps.fish"),
    "usr/share/bash-completion/completions/naplps-pages": (0o644, "completions/naplps-pages.bash"),
    "usr/share/zsh/vendor-completions/_naplps-pages": (0o644, "completions/_naplps-pages"),
    "usr/share/fish/vendor_completions.d/naplps-pages.fish": (0o644, "completions/naplps-pages.fish"),
}


class Parts(NamedTuple):
    """The program, and the folder of the library, which packages are made of."""

    program: Path
    library: Path

    def settings(self) -> Dict[str, str]:
        """What names them in an environment."""
        return {"NAPLPS": str(self.program), "NAPLPS_LIBRARY": str(self.library)}


class Expected(NamedTuple):
    """A file of a package: its mode and its bytes."""

    mode: int
    data: bytes


def ordinary_user() -> Dict[str, Any]:
    """How a process is started as an ordinary user, which it is anyhow where this one isn't root's."""
    return {"user": NOBODY, "group": NOBODY, "extra_groups": []} if os.geteuid() == 0 else {}


def copy_sources(into: Path, *more: str) -> Path:
    """Copies what packages are made of; each copy has files of its own time."""
    for name in (*SOURCES, *more):
        shutil.copytree(TOP / name, into / name, ignore=shutil.ignore_patterns("__pycache__"))
    for path in (TOP / "VERSION", *TOP.glob("*.md")):
        shutil.copyfile(path, into / path.name)
    return into


def give_away(tree: Path) -> Path:
    """Gives the tree to an ordinary user, where it is root's."""
    if os.geteuid() == 0:
        for path in (tree, *tree.rglob("*")):
            os.chown(path, NOBODY, NOBODY)
    return tree


def make(tree: Path, parts: Parts, mask: str = "022", **settings: str) -> List[Path]:
    """Makes the packages of a copy of the sources as its owner, under a mask for new files; their paths."""
    words = ["sh", "-c", 'umask "$0"; exec "$@"', mask, "/usr/bin/python3", "-m", "dev.package"]
    owner = ordinary_user() if tree.stat().st_uid != os.geteuid() else {}
    result = subprocess.run(words, cwd=tree, env={**CLEAN, **parts.settings(), **settings}, stdout=subprocess.PIPE,
                            stderr=subprocess.STDOUT, encoding="utf-8", **owner)
    assert result.returncode == 0, result.stdout
    return [Path(line) for line in result.stdout.splitlines()]


def archive(package: Path) -> tarfile.TarFile:
    """What the package installs."""
    data = subprocess.run(["dpkg-deb", "--fsys-tarfile", str(package)], stdout=subprocess.PIPE, check=True).stdout
    return tarfile.open(fileobj=io.BytesIO(data))


def contents(package: Path) -> Dict[str, bytes]:
    """The bytes of each file that the package installs, unpacked where they are packed."""
    found = {}
    with archive(package) as members:
        for member in members:
            if member.isfile():
                reader = members.extractfile(member)
                data = reader.read() if reader else b""
                found[member.name[2:]] = gzip.decompress(data) if member.name.endswith(".gz") else data
    return found


def field(package: Path, name: str) -> str:
    """A field of the package."""
    words = ["dpkg-deb", "--field", str(package), name]
    return subprocess.run(words, stdout=subprocess.PIPE, check=True, encoding="utf-8").stdout.rstrip("\n")


def expected_of_program(program: Path) -> Dict[str, Expected]:
    """Each file of the package naplps that comes from the sources, with the program."""
    found = {name: Expected(mode, (TOP / source).read_bytes()) for name, (mode, source) in PLACES.items()}
    last = f".Os naplps {(TOP / 'VERSION').read_text('ascii').strip()}\n".encode()
    for name in [name for name in found if "/man/" in name]:
        found[name] = found[name]._replace(data=found[name].data.replace(b".Os\n", last))
    places = ("docs", DOCUMENTS), ("examples", DOCUMENTS), *((f"python/{name}", "usr/lib/naplps") for name in MODULES)
    for folder, place in places:
        for path in (TOP / folder).rglob("*"):
            if path.is_file() and path.suffix != ".pyc":
                name = f"{place}/{path.relative_to((TOP / folder).parent)}"
                found[name] = Expected(0o644, path.read_bytes())
    for path in TOP.glob("*.md"):
        found[f"{DOCUMENTS}/{path.name}"] = Expected(0o644, path.read_bytes())
    return {**found, "usr/bin/naplps": Expected(0o755, program.read_bytes())}


def expected_of_library(folder: Path, name: str, version: str) -> Dict[str, Expected]:
    """Each file of a package of the library that comes from the sources or from the library's folder."""
    if name == "libnaplps0":
        return {f"{MULTIARCH}/libnaplps.so.0": Expected(0o644, (folder / "libnaplps.so.0").read_bytes())}
    config = (TOP / "library" / "naplps.pc").read_text("ascii")
    settings = {"prefix": "/usr", "libdir": "${prefix}/lib/x86_64-linux-gnu", "includedir": "${prefix}/include",
                "version": version}
    for word, text in settings.items():
        config = config.replace(f"@{word}@", text)
    files = {
        f"{MULTIARCH}/libnaplps.a": (folder / "libnaplps.a").read_bytes(),
        f"{MULTIARCH}/pkgconfig/naplps.pc": config.encode(),
        "usr/include/naplps.h": (TOP / "library" / "naplps.h").read_bytes(),
        "usr/share/doc/libnaplps-dev/examples/entries.c": (TOP / "examples" / "c" / "entries.c").read_bytes(),
    }
    return {path: Expected(0o644, data) for path, data in files.items()}
