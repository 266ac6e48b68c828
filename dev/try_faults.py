"""Plants faults in a copy of the last commit, one at a time, and looks whether the test that should catch each does.

It takes some minutes. A fault is caught if its test passes without it, and fails with it, and the failure has the text
that the table of dev/planted_faults.py has. The prover isn't needed.
"""
import os
import shlex
import subprocess
import sys
import tempfile
from pathlib import Path
from typing import Dict, Iterator, List, NamedTuple, Optional, Tuple

from dev.layout import TOP
from dev.planted_faults import FAULTS, KEPT, MADE, Fault
from dev.words import parser_of

# A command that stands for the toolchain, and proves nothing.
RT = "#!/bin/sh\n[ \"$1\" = version ] && sed -n 's/^toolchain: //p' {}/MADE || exit 9\n"
PYTEST = ("pytest-3", "-q", "-x", "--tb=short", "-m", "")
PASSED, FAILED = 0, 1


class Outcome(NamedTuple):
    """The status and the output of a test."""

    status: int
    output: str


class Copy:
    """A copy of the last commit, and the environment of its tests: a toolchain that proves nothing, and its log."""

    def __init__(self, folder: Path) -> None:
        self.top = folder / "copy"
        self._before: Dict[str, Outcome] = {}
        subprocess.run(["git", "clone", "-q", str(TOP), str(self.top)], check=True)
        log, tool = folder / "log", folder / "tools" / "rt"
        crates = [line.split(": ") for line in (self.top / MADE).read_text("utf-8").splitlines()
                  if line.startswith("nap_")]
        log.write_text("".join(f"== {name}\n{value.partition(' ')[2]}\n" for name, value in crates), "utf-8")
        tool.parent.mkdir()
        tool.write_text(RT.format(self.top / KEPT), "ascii")
        tool.chmod(0o755)
        self.env = {"PATH": f"{tool.parent}:/usr/bin:/bin", "HOME": str(folder), "LC_ALL": "C.UTF-8",
                    "NAPLPS_PROVED_LOG": str(log), "PYTHONDONTWRITEBYTECODE": "1"}

    def run(self, test: str) -> Outcome:
        """Runs a test of pytest; or a command line, without the toolchain."""
        if test.startswith("tests/"):
            words, env = [*PYTEST, test], {**self.env, "NAPLPS": str(self.top / KEPT / "naplps")}
        else:
            words, env = shlex.split(test), {**self.env, "PATH": "/usr/bin:/bin"}
        result = subprocess.run(words, cwd=self.top, env=env, stdin=subprocess.DEVNULL, stdout=subprocess.PIPE,
                                stderr=subprocess.STDOUT, encoding="utf-8", errors="replace")
        return Outcome(result.returncode, result.stdout)

    def before(self, test: str) -> Outcome:
        """The outcome of a test without a fault, which is found once."""
        if test not in self._before:
            self._before[test] = self.run(test)
            self.restore()
        return self._before[test]

    def restore(self) -> None:
        """Makes the copy that of the commit again."""
        for words in (["checkout", "-q", "."], ["clean", "-fdxq"]):
            subprocess.run(["git", "-C", str(self.top), *words], check=True, stdout=subprocess.DEVNULL)


def miss(copy: Copy, fault: Fault) -> Optional[str]:
    """Why a fault isn't caught; None where it is."""
    before = copy.before(fault.test)
    if before.status != PASSED:
        return f"{fault.test} fails without the fault, with the status {before.status}: {before.output[-600:]}"
    if fault.test.startswith("tests/") and " passed" not in before.output:
        return f"{fault.test} isn't tried here: {before.output[-600:]}"
    try:
        fault.edit.make(copy.top)
        after = copy.run(fault.test)
    except (OSError, ValueError) as error:
        return f"it can't be planted: {error}"
    finally:
        copy.restore()
    if after.status == PASSED:
        return f"{fault.test} passes"
    if fault.test.startswith("tests/") and after.status != FAILED:
        return f"{fault.test} isn't run, with the status {after.status}: {after.output[-600:]}"
    return None if fault.text in after.output else f"{fault.test} doesn't say {fault.text}: {after.output[-600:]}"


def chosen(parts: List[str]) -> Iterator[Fault]:
    """The faults with a part of a name, or all, those of one test after one another."""
    for fault in sorted(FAULTS, key=lambda fault: fault.test):
        if not parts or any(part in fault.name for part in parts):
            yield fault


def main() -> int:
    """Plants faults; 0 where all are caught."""
    parser = parser_of(__doc__)
    parser.add_argument("parts", nargs="*", metavar="PART", help="a part of a fault's name; all if there is none")
    parts = parser.parse_args().parts
    missed: List[Tuple[str, str]] = []
    count = 0
    with tempfile.TemporaryDirectory(prefix="faults-") as folder:
        copy = Copy(Path(os.path.realpath(folder)))
        for fault in chosen(parts):
            count += 1
            reason = miss(copy, fault)
            print(f"{'caught' if reason is None else 'MISSED'}: {fault.name}: {reason or fault.test}", flush=True)
            if reason is not None:
                missed.append((fault.name, reason))
    print(f"{count - len(missed)} of {count} faults are caught")
    return 1 if missed else 0


if __name__ == "__main__":
    sys.exit(main())
