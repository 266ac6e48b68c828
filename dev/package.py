"""Makes the Debian packages naplps, libnaplps0 and libnaplps-dev, by debian/ and dpkg-buildpackage.

Each is NAME_VERSION_amd64.deb, with its checksum beside it. They are made in a copy of the sources, and nothing is
proved or compiled there. NAPLPS names the program, and NAPLPS_LIBRARY the folder of the library; without them the
launcher and library/make-library build them where that is needed. VERSION is that of the file VERSION at the top, which
the program has to print, and debian/changelog to name. Equal sources, program, library and time give equal bytes; the
one time in the packages is SOURCE_DATE_EPOCH, or that of debian/changelog where this isn't set.
"""
import hashlib
import os
import re
import shutil
import subprocess
import sys
import tempfile
from pathlib import Path
from typing import List

from dev.environment import leave_out
from dev.layout import SONAME, TOP, File, Untried, find_library, find_program, stop, version_of, write_files
from dev.words import parser_of

PACKAGES = ("naplps", "libnaplps0", "libnaplps-dev")
# What they are made of, beside the program and the library.
SOURCES = (
    "VERSION", "debian", "pages/naplps-pages", "python/naplps", "python/naplps_pages", "man", "completions", "docs",
    "examples", "library/naplps.h", "library/naplps.pc", *(path.name for path in TOP.glob("*.md")),
)
# What makes them, by the packages of Debian that have it.
TOOLS = {"dpkg-buildpackage": "dpkg-dev", "dh": "debhelper", "dh_bash-completion": "bash-completion"}
# (-nc leaves the library where it is; -d doesn't ask for a compiler, which nothing here needs)
BUILD = ["dpkg-buildpackage", "-b", "-us", "-uc", "-nc", "-d"]
HEAD = re.compile(r"naplps \((\S+)\) ")


def check_version(version: str) -> None:
    """Ends this where debian/changelog names another version."""
    found = HEAD.match((TOP / "debian" / "changelog").read_text("utf-8"))
    if found is None or found[1] != version:
        raise stop(f"debian/changelog names the version {found and found[1]}, and VERSION has {version}")


def copy_sources(into: Path, program: Path, library: Path) -> None:
    """Copies what the packages are made of, with the program and the library in their places."""
    for name in SOURCES:
        path = into / name
        path.parent.mkdir(parents=True, exist_ok=True)
        if (TOP / name).is_dir():
            shutil.copytree(TOP / name, path, ignore=shutil.ignore_patterns("__pycache__", "*.pyc"))
        else:
            shutil.copy(TOP / name, path)
    (into / "dist" / "x86_64-linux-gnu").mkdir(parents=True)
    shutil.copyfile(program, into / "dist" / "x86_64-linux-gnu" / "naplps")
    shutil.rmtree(into / "debian" / "library", ignore_errors=True)
    (into / "debian" / "library").mkdir()
    for name in ("libnaplps.a", SONAME):
        shutil.copyfile(library / name, into / "debian" / "library" / name)


def build(tree: Path) -> None:
    """Makes the packages of a copy of the sources, beside it."""
    result = subprocess.run(BUILD, cwd=tree, env={**os.environ, "LC_ALL": "C"}, stdin=subprocess.DEVNULL,
                            stdout=subprocess.PIPE, stderr=subprocess.STDOUT, encoding="utf-8", errors="replace")
    if result.returncode:
        raise stop(f"dpkg-buildpackage failed:\n{result.stdout[-2000:].rstrip()}")


def make(into: Path) -> List[Path]:
    """Makes the packages and their checksums in a folder; their paths."""
    program, library = find_program(), find_library()
    version = version_of(program)
    check_version(version)
    with tempfile.TemporaryDirectory(prefix="naplps-") as folder:
        copy_sources(Path(folder, "naplps"), program, library)
        build(Path(folder, "naplps"))
        packages = [Path(folder, f"{name}_{version}_amd64.deb") for name in PACKAGES]
        files = {package.name: File(package.read_bytes(), 0o644) for package in packages}
    sums = {name: f"{hashlib.sha256(file.data).hexdigest()}  {name}\n" for name, file in files.items()}
    write_files(into, {**files, **{f"{name}.sha256": File(line.encode(), 0o644) for name, line in sums.items()}})
    return [into / name for name in files]


def main() -> int:
    """Makes the packages, and prints where they are."""
    leave_out()
    parser = parser_of(__doc__)
    parser.add_argument("folder", nargs="?", metavar="FOLDER", type=Path, default=TOP / "out",
                        help="where they go, in place of out")
    into: Path = parser.parse_args().folder.absolute()
    needed = {**TOOLS, **({} if "NAPLPS_LIBRARY" in os.environ else {"cc": "gcc libc6-dev", "ld": "binutils"})}
    missing = [tool for tool in needed if shutil.which(tool) is None]
    if missing:
        packages = " ".join(needed[tool] for tool in missing)
        raise stop(f"not there: {', '.join(missing)} (Debian: apt-get install {packages})")
    if not re.fullmatch(r"[0-9]{1,10}", os.environ.get("SOURCE_DATE_EPOCH", "0")):
        raise stop(f"SOURCE_DATE_EPOCH is no number of seconds: {os.environ['SOURCE_DATE_EPOCH']}")
    try:
        print("\n".join(map(str, make(into))))
    except (OSError, subprocess.CalledProcessError, Untried) as error:
        raise stop(str(error)) from None
    return 0


if __name__ == "__main__":
    sys.exit(main())
