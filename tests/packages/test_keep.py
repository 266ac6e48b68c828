"""python3 -m dev.keep and the comparison of dist by test_kept.py, in small trees with a toolchain that proves nothing.
"""
import hashlib
import os
import re
import shutil
import subprocess
from pathlib import Path
from typing import Dict, Iterable

import pytest

from dev.layout import TOP

CRATES = "nap_low: arrayvec\nnap_c staticlib: nap_low\nnap_cli: nap_low clap\nnap_tests: nap_low\n"
SOURCES = (("nap_low", "lib"), ("nap_c", "lib"), ("nap_cli", "main"), ("nap_tests", "lib"))
COPIED = ("dev", "python/naplps", "python/naplps_pages")
COPIED_FILES = ("VERSION", "pytest.ini", "scripts/files-sum", "tests/packages/test_kept.py")
COMPARE = ("-m", "pytest", "-q", "-m", "", "-k", "not browser_module", "tests/packages/test_kept.py")
PROVED = "logic=proved functions=3 sum=0"
RT = r"""#!/bin/sh
case $1 in
    version) echo "${VERSION:-kit 1}" ;;
    doc) echo "$KIT/START-HERE.md" ;;
    ci)
        [ -z "${RUINED-}" ] || { echo "== nap_low"; echo "2 passed, 1 failed"; exit 1; }
        for crate in nap_low nap_c nap_cli; do
            [ "$crate" = "${EARLIER-}" ] || printf '== %s\nlogic=proved functions=3 sum=0\n' $crate
        done
        printf '== nap_low: its tests\nlogic=proved functions=9 sum=0\n'
        mkdir -p crates/nap_cli/out crates/nap_low/out/rlib/nap_low.rlib
        cat crates/nap_low/src/lib.rt crates/nap_cli/src/main.rt > crates/nap_cli/out/nap_cli
        [ -z "${MEANWHILE-}" ] || sh -c "$MEANWHILE"
        echo "3 passed, 0 failed"
        ;;
    *) exit 9 ;;
esac
"""
RATTLE = r"""#!/bin/sh
while [ "$1" != -o ]; do
    case $1 in nap_low=*/nap_low.rlib) [ -d "${1#nap_low=}" ] || exit 9 ;; esac
    shift
done
cat ../nap_low/src/lib.rt src/lib.rt > "$2"
echo "${VERDICT-logic=proved functions=3 sum=0}" >&2
"""


class Tree:
    """Small sources of four crates, and a toolchain."""

    def __init__(self, folder: Path) -> None:
        self.folder, self.top, self.log = folder, folder / "tree", folder / "log"
        self.dist = self.top / "dist" / "x86_64-linux-gnu"
        self.record = self.dist / "MADE"
        for name in COPIED:
            shutil.copytree(TOP / name, self.top / name, ignore=shutil.ignore_patterns("__pycache__"))
        for name in COPIED_FILES:
            (self.top / name).parent.mkdir(parents=True, exist_ok=True)
            shutil.copy(TOP / name, self.top / name)
        (self.top / "crates.txt").write_text(CRATES, "ascii")
        for crate, file in SOURCES:
            self.source(crate, file, crate)
        for tool, text in (("rt", RT), ("rattle", RATTLE)):
            path = folder / "tools" / tool
            path.parent.mkdir(exist_ok=True)
            path.write_text(text, "ascii")
            path.chmod(0o755)
        for part in ("c", "toolchain/bin"):
            (folder / "kit" / part).mkdir(parents=True)
        (folder / "kit" / "c" / "liblibc_c.a").write_text("heap\n", "ascii")

    def source(self, crate: str, file: str, text: str) -> None:
        """Writes a source."""
        path = self.top / "crates" / crate / "src" / f"{file}.rt"
        path.parent.mkdir(parents=True, exist_ok=True)
        path.write_text(f"{text}\n", "ascii")

    def run(self, *words: str, **settings: str) -> "subprocess.CompletedProcess[str]":
        """Runs Python in the tree."""
        env = {"PATH": f"{self.folder}/tools:/usr/bin:/bin", "KIT": str(self.folder / "kit"),
               "PYTHONDONTWRITEBYTECODE": "1", **settings}
        return subprocess.run(["/usr/bin/python3", *words], cwd=self.top, env=env, stdout=subprocess.PIPE,
                              stderr=subprocess.STDOUT, encoding="utf-8")

    def keep(self, *words: str, **settings: str) -> Dict[str, str]:
        """Puts what is proved into dist; the lines of MADE."""
        result = self.run("-m", "dev.keep", *words, **settings)
        assert result.returncode == 0, result.stdout
        return dict(line.split(": ", 1) for line in self.record.read_text("ascii").splitlines())

    def refuses(self, reason: str, *words: str, **settings: str) -> None:
        """Puts nothing into dist, and tells the reason."""
        result = self.run("-m", "dev.keep", *words, **settings)
        assert result.returncode == 1 and reason in result.stdout, result.stdout
        assert not self.dist.exists()

    def compare(self, log: str = "", **settings: str) -> "subprocess.CompletedProcess[str]":
        """Runs the comparison, with a log."""
        self.log.write_text(log, "ascii")
        return self.run(*COMPARE, NAPLPS_PROVED_LOG=str(self.log), **settings)

    def agrees(self, log: str = "", **settings: str) -> None:
        """The comparison has to find nothing."""
        result = self.compare(log, **settings)
        assert result.returncode == 0 and re.search(r"^\d+ passed", result.stdout, re.MULTILINE), result.stdout

    def differs(self, reasons: Iterable[str], log: str = "", **settings: str) -> str:
        """The comparison has to find a difference, with these words; its output."""
        result = self.compare(log, **settings)
        assert result.returncode == 1, result.stdout
        assert all(reason in result.stdout for reason in reasons), result.stdout
        return result.stdout


@pytest.fixture
def tree(tmp_path: Path) -> Tree:
    """A tree of its own for each test."""
    return Tree(tmp_path)


def test_dist_has_what_was_proved(tree: Tree) -> None:
    """dist has the bytes; MADE has their checksums first, as dev.sources_sum prints them, and then the verdicts."""
    lines = tree.keep()
    contents = {path.name: path.read_text("ascii") for path in tree.dist.iterdir() if path != tree.record}
    assert contents == {"naplps": "nap_low\nnap_cli\n", "libnap_c.a": "nap_low\nnap_c\n", "liblibc_c.a": "heap\n"}
    assert os.access(tree.dist / "naplps", os.X_OK)
    assert tree.record.read_text("ascii").startswith(tree.run("-m", "dev.sources_sum").stdout)
    assert lines["toolchain"] == "kit 1"
    assert lines["nap_c"] == f"{lines['library-sources']} {PROVED}"
    assert "nap_tests" not in lines
    tree.agrees()
    assert tree.keep() == lines


def test_comments_need_no_proof(tree: Tree) -> None:
    """MADE alone is renewed, by --comments, and only where no token changed."""
    tree.source("nap_cli", "main", "nap_cli // the program")
    lines = tree.keep()
    tree.source("nap_cli", "main", "/* the /* whole */ */\n\n  nap_cli")
    assert "1 failed" in tree.differs(["MADE hasn't the checksum of the files"])
    renewed = tree.keep("--comments")
    tree.agrees()
    total = subprocess.run([tree.top / "scripts" / "files-sum", "nap_cli"], stdout=subprocess.PIPE, encoding="ascii")
    assert {**lines, "program-files": total.stdout.strip()} == renewed != lines
    tree.source("nap_cli", "main", "another")
    assert "more than comments and layout changed" in tree.run("-m", "dev.keep", "--comments").stdout
    assert dict(line.split(": ", 1) for line in tree.record.read_text("ascii").splitlines()) == renewed


@pytest.mark.parametrize("reason, name, text", [
    ("rt ci didn't pass", "RUINED", "1"), ("no verdict on nap_c", "VERDICT", "logic=unproved"),
    ("a source changed meanwhile", "MEANWHILE", "echo other > crates/nap_low/src/lib.rt"),
])
def test_what_is_not_proved_is_refused(tree: Tree, reason: str, name: str, text: str) -> None:
    """Where `rt ci` fails, or the library isn't proved, or a source changes meanwhile, dist stays."""
    tree.refuses(reason, **{name: text})


@pytest.mark.parametrize("line, reason", [
    ("3 passed, 0 failed (nap_low and the crates below alone: not the gate)", "rt ci didn't pass"),
    ("3 passed, 0 failed", "rt ci left no program"),
])
def test_a_log_of_something_else_is_refused(tree: Tree, line: str, reason: str) -> None:
    """A log that isn't of the whole gate, or one without a program, is refused."""
    tree.log.write_text(f"{line}\n", "ascii")
    tree.refuses(reason, "--proved", str(tree.log))


def test_libraries_of_earlier_sources_go(tree: Tree) -> None:
    """A library in crates/ that rt left of earlier sources isn't linked into the archive."""
    stale = tree.top / "crates" / "nap_low" / "out" / "rlib" / "stale"
    stale.mkdir(parents=True)
    tree.keep()
    assert not stale.exists()


def test_verdicts_of_earlier_runs(tree: Tree) -> None:
    """A verdict that this run doesn't tell is that of the last MADE or of a log, while the sources are the same."""
    assert tree.keep(EARLIER="nap_low")["nap_low"].endswith(" proved by an earlier run of rt ci")
    tree.agrees()
    tree.log.write_text("== nap_low\nlogic=proved functions=2 sum=0\n", "ascii")
    assert "functions=2" in tree.keep("--verdicts", str(tree.log), EARLIER="nap_low")["nap_low"]
    assert tree.keep()["nap_low"].endswith(PROVED)
    assert tree.keep(EARLIER="nap_low")["nap_low"].endswith(PROVED)
    tree.source("nap_low", "lib", "changed")
    assert not tree.keep(EARLIER="nap_low")["nap_low"].endswith(PROVED)


def test_a_toolchain_of_the_same_logic(tree: Tree) -> None:
    """What another toolchain made is compared by its bytes, where the logic is the same."""
    tree.keep(VERSION="kit 1 logic 5")
    tree.agrees(VERSION="kit 2 logic 5")
    tree.differs(["kit 1 logic 5"], VERSION="kit 2 logic 6")
    tree.differs(["kit 1 logic 5"], VERSION="kit 1")


def test_changed_sources_are_found(tree: Tree) -> None:
    """What was made from other sources, or by another toolchain, is found; tests and documents aren't looked at."""
    tree.keep()
    tree.source("nap_tests", "lib", "changed")
    tree.agrees()
    tree.differs(["kit 1"], VERSION="kit 2")
    for crate, file in SOURCES[:3]:
        tree.source(crate, file, "changed")
        tree.differs(["other sources"])
        tree.source(crate, file, crate)
    tree.agrees()
    (tree.top / "crates" / "nap_low" / "proofs").mkdir()
    (tree.top / "crates" / "nap_low" / "proofs" / "Lib.antt").write_text("lemma\n", "ascii")
    tree.differs([])


@pytest.mark.parametrize("old, new, reason", [
    ("functions=3", "functions=4", "rt ci said"), ("sum=0", "axioms=14 sum=0", "rt ci said"),
    ("proved", "unproved", "no verdict on nap_low"), ("proved", "assumed", "no verdict on nap_low"),
])
def test_another_verdict_is_found(tree: Tree, old: str, new: str, reason: str) -> None:
    """A verdict of MADE that isn't that of the run is found, and so is one that says that nothing is proved."""
    log = f"== nap_low\n{PROVED}\n"
    tree.keep()
    tree.agrees(log)
    tree.record.write_text(re.sub(rf"(?m)^(nap_low: .*){old}", rf"\g<1>{new}", tree.record.read_text("ascii")), "ascii")
    tree.differs([reason], log)


@pytest.mark.parametrize("name", ["naplps", "libnap_c.a", "liblibc_c.a"])
def test_a_changed_byte_is_found(tree: Tree, name: str) -> None:
    """It is found also where MADE has the checksum of what it was changed to."""
    tree.keep()
    path = tree.dist / name
    data = path.read_bytes().replace(b"p", b"q", 1)
    path.write_bytes(data)
    tree.differs([f"{path} isn't that of MADE"])
    lines = re.sub(rf"(?m)^{name}: .*", f"{name}: {hashlib.sha256(data).hexdigest()}", tree.record.read_text("ascii"))
    tree.record.write_text(lines, "ascii")
    assert "1 failed" in tree.differs(["has other bytes than"])


def test_what_else_was_altered_is_found(tree: Tree) -> None:
    """A changed MADE, another mode, and a missing dist are found; dev.keep mends the mode."""
    lines = tree.keep()
    text = tree.record.read_bytes()
    tree.record.write_bytes(text.replace(b"p", b"q", 1))
    tree.differs([])
    tree.record.write_bytes(text)
    (tree.dist / "naplps").chmod(0o644)
    assert "1 failed" in tree.differs(["has another mode"])
    assert tree.keep() == lines
    tree.agrees()
    shutil.rmtree(tree.dist)
    tree.differs(["dist was made from other sources of nap_cli", "no verdict on nap_low"])
