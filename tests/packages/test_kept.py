"""dist has what `rt ci` has just proved and built in crates/; NAPLPS_PROVED_LOG names the log of that run.

The archive of the library is proved and compiled once more for that, in crates/, so that nothing else may work there
meanwhile. The verdicts of MADE are compared with those of the log, on each crate that was proved in that run.
"""
import os
from pathlib import Path
from typing import Dict

import pytest

from dev.packaging import for_browsers
from dev.packaging.kept import (
    ARCHIVE, BUILT, CODE, EARLIER, HEAP, KEPT, MADE, MODES, PROGRAM, VERDICT, archive_after_gate, ask, file_sum,
    files_sum, heap, kept_crates, same_logic, sources_sum, verdicts_of,
)
from dev.packaging.made import read_made
from dev.packaging.webassembly import NotMade

pytestmark = pytest.mark.proofs
RENEW = "(python3 -m dev.keep makes dist anew, to be committed with the sources)"
RENEW_FILES = "(python3 -m dev.keep --comments writes that in a second, to be committed with them)"
RENEW_BROWSER = "(python3 -m dev.browser makes dist/browser anew)"


@pytest.fixture(scope="module")
def verdicts() -> Dict[str, str]:
    """What the run told of each crate."""
    log = os.environ.get("NAPLPS_PROVED_LOG")
    if log is None:
        pytest.skip("NAPLPS_PROVED_LOG names no log of an `rt ci` that has just passed here")
    return verdicts_of(Path(log).read_text("utf-8", "replace"))


@pytest.fixture(scope="module")
def lines(verdicts: Dict[str, str]) -> Dict[str, str]:
    """The lines of MADE."""
    return read_made(MADE)


@pytest.fixture(scope="module")
def built(verdicts: Dict[str, str]) -> Dict[str, Path]:
    """The files that were built just now, and the toolchain's."""
    return {PROGRAM: BUILT, ARCHIVE: archive_after_gate(), HEAP: heap()}


@pytest.mark.parametrize("name, crate", [("program-sources", "nap_cli"), ("library-sources", "nap_c")])
def test_made_has_the_sources(lines: Dict[str, str], name: str, crate: str) -> None:
    """MADE has the checksum of the sources."""
    assert lines.get(name) == sources_sum(crate), f"dist was made from other sources of {crate} {RENEW}"


def test_made_has_the_files_of_the_program(lines: Dict[str, str]) -> None:
    """MADE has the checksum by which a start knows the program without Python."""
    assert lines.get("program-files") == files_sum("nap_cli"), (
        f"MADE hasn't the checksum of the files, so that a start takes Python {RENEW_FILES}")


@pytest.mark.parametrize("name", MODES)
def test_made_has_the_file(lines: Dict[str, str], name: str) -> None:
    """MADE has the checksum of the file, and only the program can be run."""
    path = KEPT / name
    assert path.is_file() and file_sum(path) == lines.get(name), f"{path} isn't that of MADE {RENEW}"
    assert os.access(path, os.X_OK) == bool(MODES[name] & 0o100), f"{path} has another mode"


def test_made_has_the_toolchain(lines: Dict[str, str]) -> None:
    """MADE names a toolchain of the logic that is here."""
    maker = lines.get("toolchain", "")
    assert same_logic(maker, ask("rt", "version")), f"dist was made by {maker}, of another logic {RENEW}"


@pytest.mark.parametrize("crate", kept_crates())
def test_made_has_a_verdict(lines: Dict[str, str], verdicts: Dict[str, str], crate: str) -> None:
    """MADE says that the crate is proved, and by the line of the log where that has one."""
    total, _, line = lines.get(crate, "").partition(" ")
    is_verdict = VERDICT.fullmatch(line) is not None or line == EARLIER
    assert total == sources_sum(crate) and is_verdict, f"MADE has no verdict on {crate} {RENEW}"
    assert line in (verdicts.get(crate, line), EARLIER), (
        f"MADE says of {crate} {line}; rt ci said {verdicts.get(crate)} {RENEW}")


@pytest.mark.parametrize("name", MODES)
def test_file_is_the_one_that_was_built(built: Dict[str, Path], name: str) -> None:
    """The file has the bytes of the one that was built, or of the toolchain's."""
    path, stored = built[name], KEPT / name
    assert path.is_file() and stored.is_file() and path.read_bytes() == stored.read_bytes(), (
        f"{stored} has other bytes than {path} {RENEW}")


def test_browser_module_is_of_the_proved_code(built: Dict[str, Path]) -> None:
    """dist/browser has the module that is compiled from the code of which the archive was."""
    try:
        version = for_browsers.tools().versions()["binaryen"]
    except NotMade as reason:
        pytest.skip(str(reason))
    named = read_made(for_browsers.MADE).get("binaryen")
    if named not in (None, version):
        pytest.skip(f"binaryen {version} is here, and {for_browsers.MADE} names {named}")
    if not CODE.is_file():
        pytest.skip("libraries of other commands stand in crates/, so that there is no code of the archive")
    faults = for_browsers.faults_of(KEPT / ARCHIVE)
    assert not faults, f"{'; '.join(faults.values())} {RENEW_BROWSER}"
    files = for_browsers.make()
    for name in (for_browsers.MODULE, for_browsers.MADE.name):
        path = for_browsers.FOLDER / name
        assert path.read_bytes() == files[name].data, f"{path} has other bytes than are made of {CODE} {RENEW_BROWSER}"
