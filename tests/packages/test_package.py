"""python3 -m dev.package makes the Debian packages, and they have what they should."""
import hashlib
import os
import re
import shutil
import subprocess
import sys
from email.utils import parsedate_to_datetime
from pathlib import Path
from typing import Dict, List

import pytest

from debs import (
    CLEAN, FOUND_BY_PYTHON, MODULES, MULTIARCH, NAMES, Expected, Parts, archive, contents, copy_sources,
    expected_of_library, expected_of_program, field, give_away, make,
)
from dev.judging import run
from dev.layout import SONAME, TOP, sources_version
from dev.packaging.kept import MADE
from dev.packaging.made import read_made

# 1 January 2100: after the times of all files.
LATE = 4102444800
MAKE = [sys.executable, "-m", "dev.package"]
LINKS = {
    "naplps": {f"{FOUND_BY_PYTHON}/{name}": f"../../naplps/{name}" for name in MODULES},
    "libnaplps0": {},
    "libnaplps-dev": {f"{MULTIARCH}/libnaplps.so": SONAME},
}


def time_of_changelog() -> int:
    """The time of the newest entry of debian/changelog, in seconds."""
    found = re.search(r"(?m)^ -- .*>  (.*)$", (TOP / "debian" / "changelog").read_text("utf-8"))
    assert found is not None
    return int(parsedate_to_datetime(found[1]).timestamp())


@pytest.fixture
def expected(name: str, parts: Parts) -> Dict[str, Expected]:
    """Each file of a package."""
    own = {f"usr/share/doc/{name}/{file}": file for file in ("copyright", "changelog.gz", "NOTICES.md")}
    sources = {"copyright": "debian/copyright", "changelog.gz": "debian/changelog", "NOTICES.md": "NOTICES.md"}
    files = {path: Expected(0o644, (TOP / sources[file]).read_bytes()) for path, file in own.items()}
    if name != "naplps":
        return {**files, **expected_of_library(parts.library, name, sources_version())}
    overrides = (TOP / "debian" / "naplps.lintian-overrides").read_bytes()
    files["usr/share/lintian/overrides/naplps"] = Expected(0o644, overrides)
    return {**files, **expected_of_program(parts.program)}


@pytest.fixture
def package(name: str, packages: List[Path]) -> Path:
    """A package, by its name."""
    return packages[NAMES.index(name)]


def test_another_copy_gives_the_same_bytes(packages: List[Path], parts: Parts, open_folder: Path) -> None:
    """So does one by another user, of another time, in other settings, with compiled modules, and over packages that
    stand there."""
    tree = copy_sources(open_folder / "second" / "copy, deeper")
    (tree / "python" / "naplps" / "__pycache__").mkdir()
    (tree / "python" / "naplps" / "__pycache__" / "names.cpython-39.pyc").write_bytes(b"x")
    give_away(tree)
    late = make(tree, parts, SOURCE_DATE_EPOCH=str(LATE))
    assert late == [tree / "out" / package.name for package in packages]
    for package in late:
        with archive(package) as members:
            assert {member.mtime for member in members} == {LATE}, package.name
    settings = {"TZ": "Asia/Tokyo", "LC_ALL": "C.UTF-8", "HOME": str(open_folder), "DEB_BUILD_OPTIONS": "nodoc"}
    others = make(tree, parts, "077", SOURCE_DATE_EPOCH=str(time_of_changelog()), **settings)
    for first, second in zip(packages, others):
        assert first.read_bytes() == second.read_bytes(), f"another copy of the sources gives another {first.name}"


def test_dpkg_buildpackage_alone_gives_the_same_bytes(packages: List[Path], parts: Parts, tmp_path: Path) -> None:
    """It packs the program of dist, and the library that is linked from the archive of dist."""
    tree = copy_sources(tmp_path / "naplps", "crates", "dist")
    shutil.copy(TOP / "crates.txt", tree)
    if read_made(MADE).get("naplps") != hashlib.sha256(parts.program.read_bytes()).hexdigest():
        pytest.skip("the program that is tried isn't that of dist")
    if shutil.which("cc", path=CLEAN["PATH"]) is None:
        pytest.skip("cc isn't there (Debian: apt-get install gcc libc6-dev)")
    result = run(["dpkg-buildpackage", "-b", "-us", "-uc", "-d"], cwd=tree, env=CLEAN, stderr=subprocess.STDOUT)
    assert result.status == 0, result.out.decode("utf-8", "replace")
    for package in packages:
        assert (tmp_path / package.name).read_bytes() == package.read_bytes(), package.name


@pytest.mark.parametrize("name", NAMES)
def test_package_has_the_files(package: Path, expected: Dict[str, Expected]) -> None:
    """It has these files and no others, each with the bytes of its source; the program is neither stripped nor
    compiled."""
    data = contents(package)
    assert set(data) == set(expected), f"the files differ: {sorted(set(data) ^ set(expected))}"
    for path, file in expected.items():
        assert data[path] == file.data, f"{path} isn't its source"


@pytest.mark.parametrize("name", NAMES)
def test_package_has_owners_modes_and_one_time(name: str, package: Path, expected: Dict[str, Expected]) -> None:
    """All is root's, of the time of debian/changelog, and has its mode; links lead where they should."""
    epoch, links = time_of_changelog(), {}
    with archive(package) as members:
        for member in members:
            mode = 0o755 if member.isdir() else 0o777 if member.issym() else expected[member.name[2:]].mode
            if member.issym():
                links[member.name[2:]] = member.linkname
            found = (member.mode, member.uid, member.gid, member.uname, member.gname, member.mtime)
            assert found == (mode, 0, 0, "root", "root", epoch), f"{member.name} has {found}"
    assert links == LINKS[name]


@pytest.mark.parametrize("name", NAMES)
def test_package_names_no_folder_of_the_build(package: Path, open_folder: Path) -> None:
    """No byte tells where it was made."""
    for path, data in contents(package).items():
        for word in (str(open_folder).encode(), str(TOP).encode() + b"/"):
            assert word not in data, f"{path} has {word!r}"


@pytest.mark.parametrize("name", NAMES)
def test_package_has_its_fields(name: str, package: Path) -> None:
    """Its name, its version and what it depends on."""
    version = sources_version()
    assert package.name == f"{name}_{version}_amd64.deb"
    fields = [field(package, key) for key in ("Package", "Version", "Architecture")]
    assert fields == [name, version, "amd64"]
    depends = {"naplps": r"libc6 \(>= 2\.\d+\), python3 \(>= 3\.9\)", "libnaplps0": r"libc6 \(>= 2\.\d+\)",
               "libnaplps-dev": rf"libnaplps0 \(= {re.escape(version)}\)"}
    assert re.fullmatch(depends[name], field(package, "Depends"))


@pytest.mark.parametrize("name", NAMES)
def test_package_has_its_sums(package: Path, tmp_path: Path) -> None:
    """The checksum beside it is its own, and those in it are those of its files."""
    line = f"{hashlib.sha256(package.read_bytes()).hexdigest()}  {package.name}\n"
    assert Path(f"{package}.sha256").read_text("ascii") == line
    subprocess.run(["dpkg-deb", "--raw-extract", str(package), str(tmp_path)], check=True)
    result = run(["md5sum", "--check", "--strict", "--quiet", "DEBIAN/md5sums"], cwd=tmp_path)
    assert result.status == 0, result
    listed = (tmp_path / "DEBIAN" / "md5sums").read_text("utf-8").splitlines()
    assert {line[34:] for line in listed} == set(contents(package))


def test_copyright_gives_no_licence(packages: List[Path]) -> None:
    """It says that there is none."""
    assert b"No licence is chosen" in contents(packages[0])["usr/share/doc/naplps/copyright"]


def test_shared_library_is_known_to_dpkg(packages: List[Path]) -> None:
    """Packages that are linked with it get to depend on it, and the loader finds it."""
    words = ["dpkg-deb", "--info", str(packages[1])]
    shlibs = subprocess.run([*words, "shlibs"], stdout=subprocess.PIPE, check=True, encoding="ascii").stdout
    triggers = subprocess.run([*words, "triggers"], stdout=subprocess.PIPE, check=True, encoding="ascii").stdout
    assert shlibs == f"libnaplps 0 libnaplps0 (>= {sources_version()})\n"
    assert "activate-noawait ldconfig" in triggers.splitlines()


def test_lintian_finds_nothing(packages: List[Path]) -> None:
    """It finds neither errors nor warnings."""
    if shutil.which("lintian") is None:
        pytest.skip("lintian isn't there (Debian: apt-get install lintian)")
    root = ["--allow-root"] if os.geteuid() == 0 else []
    result = run(["lintian", "--fail-on", "error,warning", *root, *map(str, packages)], stderr=subprocess.STDOUT)
    assert result.status == 0, result.out.decode("utf-8", "replace")


def test_missing_tools_are_named_in_one_line() -> None:
    """So is what installs them."""
    result = run(MAKE, env={"PATH": "/nonexistent"}, cwd=TOP)
    assert (result.status, result.out) == (1, b"")
    assert result.err == (
        b"package.py: not there: dpkg-buildpackage, dh, dh_bash-completion, cc, ld "
        b"(Debian: apt-get install dpkg-dev debhelper bash-completion gcc libc6-dev binutils)\n")


@pytest.mark.parametrize("path, old, new, reason", [
    ("debian/changelog", "naplps (", "naplps (9.", b"debian/changelog names the version 9."),
    ("VERSION", "0.", "9.", b"these sources have the version 9."),
])
def test_another_version_is_refused(parts: Parts, tmp_path: Path, path: str, old: str, new: str, reason: bytes) -> None:
    """debian/changelog and the program have to have that of the file VERSION."""
    tree = copy_sources(tmp_path / "copy")
    (tree / path).write_text((tree / path).read_text("utf-8").replace(old, new, 1), "utf-8")
    result = run(MAKE, cwd=tree, env={**CLEAN, **parts.settings()})
    assert result.status == 1 and reason in result.err and result.err.count(b"\n") == 1, result
    assert not (tree / "out").exists()


def test_a_time_that_is_none_is_refused(parts: Parts) -> None:
    """SOURCE_DATE_EPOCH is a number of seconds."""
    result = run(MAKE, cwd=TOP, env={**CLEAN, **parts.settings(), "SOURCE_DATE_EPOCH": "yesterday"})
    assert (result.status, result.out) == (1, b"")
    assert result.err == b"package.py: SOURCE_DATE_EPOCH is no number of seconds: yesterday\n"
