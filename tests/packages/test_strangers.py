"""What root may run takes no module and no program of a folder of strangers, whatever the environment names:
scripts/install, library/make-library and dev.package, with such a folder that has a hostile file for each of both.

The first two run in that folder. `python3 -m dev.package` runs at the top, and takes modules from there: -E has Python
leave out what the environment says of others.
"""
import os
import sys
from pathlib import Path
from typing import Dict, List

import pytest

from dev.judging import Answer, run
from dev.layout import TOP

USUAL = {"PATH": "/usr/bin:/bin", "HOME": "/nonexistent", "SOURCE_DATE_EPOCH": "1700000000"}
# What an environment may say, with the folder's path for @.
SETTINGS: Dict[str, Dict[str, str]] = {
    "an empty name in PYTHONPATH": {"PYTHONPATH": ":"},
    "the current folder in PYTHONPATH": {"PYTHONPATH": "."},
    "the folder in PYTHONPATH": {"PYTHONPATH": "@"},
    "PYTHONHOME": {"PYTHONHOME": "@"},
    "other variables of Python": {"PYTHONSTARTUP": "@/evil", "PYTHONUSERBASE": "@", "PYTHONINSPECT": "1",
                                  "PYTHONWARNINGS": "error::evil.Warning", "PYTHONBREAKPOINT": "evil.run"},
    "an empty name in PATH": {"PATH": ":/usr/bin:/bin"},
    "the current folder in PATH": {"PATH": ".:/usr/bin:/bin"},
    "the folder in PATH": {"PATH": "@:/usr/bin:/bin"},
    "the folder in PATH by another name": {"PATH": "/proc/self/cwd:/usr/bin:/bin"},
    "files that shells read": {"BASH_ENV": "@/evil", "ENV": "@/evil", "CDPATH": "@"},
    "functions": {f"BASH_FUNC_{name}%%": "() { touch @/ran; }" for name in ("find", "cd", "uname", "printf", "env")},
    "what compilers read": {"COMPILER_PATH": "@", "GCC_EXEC_PREFIX": "@/", "LIBRARY_PATH": "@", "CPATH": "@"},
    "what git reads": {"GIT_EXEC_PATH": "@", "GIT_DIR": "@", "GIT_SSH_COMMAND": "@/evil", "GIT_PAGER": "@/evil"},
    "what Perl reads": {"PERL5LIB": "@", "PERL5OPT": "-Mevil", "PERLLIB": "@"},
    "what make reads": {"MAKEFILES": "@/evil.mk", "MAKEFLAGS": "--eval=$(shell touch @/ran)", "MAKE": "@/evil",
                        "GNUMAKEFLAGS": "--eval=$(shell touch @/ran)"},
    "what dpkg and debhelper read": {"DPKG_DATADIR": "@", "DPKG_ROOT": "@", "DH_OPTIONS": "--with=evil",
                                     "DEB_RULES_REQUIRES_ROOT": "yes", "DEB_GAIN_ROOT_CMD": "@/evil"},
}


COMMANDS = {
    "install": [str(TOP / "scripts" / "install")], "make-library": [str(TOP / "library" / "make-library")],
    "package": ["/usr/bin/python3", "-E", "-s", "-m", "dev.package"],
}


class Strange:
    """A folder of strangers, whose files note that they ran."""

    def __init__(self, folder: Path) -> None:
        self.folder, self.ran = folder, folder / "ran"
        folder.mkdir()
        modules = getattr(sys, "stdlib_module_names", ("argparse", "pathlib", "re", "subprocess", "tempfile", "typing"))
        for name in {*modules, "sitecustomize", "usercustomize", "evil", "dev", "naplps"}:
            (folder / f"{name}.py").write_text(f"open({str(self.ran)!r}, 'w')\n", "ascii")
        (folder / "evil.pm").write_text(f"open(my $file, '>', '{self.ran}'); 1;\n", "ascii")
        (folder / "evil.mk").write_text(f"$(shell touch '{self.ran}')\n", "ascii")
        evil = folder / "evil"
        evil.write_text(f"#!/bin/sh\n: > '{self.ran}'\n", "ascii")
        evil.chmod(0o755)
        for name in {name for place in ("/usr/bin", "/bin") for name in os.listdir(place)} - {"evil"}:
            os.link(evil, folder / name)
        folder.chmod(0o777)  # (a folder that only its owner may write is trusted)

    def run(self, command: str, words: List[str], settings: Dict[str, str]) -> Answer:
        """Runs a command, of which nothing of the folder may run."""
        named = {name: text.replace("@", str(self.folder)) for name, text in settings.items()}
        place = TOP if command == "package" else self.folder
        result = run([*COMMANDS[command], *words], cwd=place, env={**USUAL, **named})
        assert not self.ran.exists(), f"something of the folder ran: {result}"
        return result


@pytest.fixture(scope="module")
def strange(tmp_path_factory: pytest.TempPathFactory) -> Strange:
    """A folder of strangers."""
    return Strange(tmp_path_factory.mktemp("strangers") / "strange")


@pytest.mark.parametrize("settings", SETTINGS)
@pytest.mark.parametrize("name", COMMANDS)
def test_command_starts(strange: Strange, name: str, settings: str) -> None:
    """It prints its help whatever one group of variables says."""
    result = strange.run(name, ["--help"], SETTINGS[settings])
    assert result.status == 0 and result.out.startswith(b"usage: ") and not result.err, str(result)


@pytest.mark.parametrize("name", COMMANDS)
def test_command_does_all_of_its_work(request: pytest.FixtureRequest, strange: Strange, name: str,
                                      tmp_path: Path) -> None:
    """It does where all of that is said at once."""
    if name == "package":
        request.getfixturevalue("packages")
    settings = {key: text for group in SETTINGS.values() for key, text in group.items()}
    settings["PATH"] = ":.:@:/proc/self/cwd:/usr/bin:/bin"
    result = strange.run(name, [str(tmp_path / "made")], settings)
    assert result.status == 0 and not result.err, str(result)
    assert any((tmp_path / "made").rglob("*naplps*")), f"{name} made nothing"
