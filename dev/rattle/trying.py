"""Tries edits with the prover, in a copy of the repository, so that work in it can continue."""
import os
import re
import shutil
import subprocess
import sys
from pathlib import Path
from typing import Dict, List

from dev.rattle.edits import PLACES

REFUSED = "refused"
VERDICT = re.compile(r"^(?:rt: )?must-fail (?P<crate>\w+)/(?P<edit>[\w.-]+)\.edit: (?P<words>.*)$")
KIB_A_CHECK = 4 * 1024 * 1024


def side_by_side() -> int:
    """How many checks run side by side: one for each processor, and no more than one for each 4 GiB of memory."""
    processors = len(os.sched_getaffinity(0))
    memory = re.search(r"MemAvailable:\s+(\d+)", Path("/proc/meminfo").read_text("ascii"))
    return max(1, min(processors, int(memory[1]) // KIB_A_CHECK if memory else 1))


def verdicts_in(name: str, output: str) -> Dict[str, str]:
    """The verdict of `rt ci` on each edit of a crate: `refused`, or its own words. One that is refused only since a
    proof names what is gone shows nothing, and keeps these words."""
    verdicts = {}
    for found in filter(None, map(VERDICT.match, output.splitlines())):
        words = found["words"]
        if found["crate"] == name:
            is_refused = words.startswith("refused, as it must be") and "only " not in words[:40]
            verdicts[found["edit"]] = REFUSED if is_refused else words[:200]
    return verdicts


class Room:
    """A copy of a repository's crates, in which edits are tried."""

    def __init__(self, root: Path, path: Path) -> None:
        """Copies the crates to a folder, with what earlier checks kept of them, so that little is proved again."""
        self.path = path
        self.jobs = os.environ.get("RT_JOBS") or str(side_by_side())
        for file in ("crates.txt", "HANDLES"):
            shutil.copy(root / file, path / file)
        shutil.copytree(root / "crates", path / "crates", symlinks=True)

    def run(self, words: List[str], folder: Path) -> "subprocess.CompletedProcess[str]":
        """Runs a command of the toolchain in a folder."""
        return subprocess.run(
            words, cwd=folder, env=dict(os.environ, RT_JOBS=self.jobs), stdin=subprocess.DEVNULL,
            stdout=subprocess.PIPE, stderr=subprocess.STDOUT, text=True, errors="replace", check=False,
        )

    def is_proved(self, name: str) -> bool:
        """Whether a crate is proved as it is; the prover's last words are printed where it isn't. What `rt ci` has
        passed on this machine isn't proved again."""
        checked = self.run(["rt", "ci", name], self.path)
        if checked.returncode != 0:
            print(f"{name}: it isn't proved as it is:\n{checked.stdout[-2000:]}", file=sys.stderr)
        return checked.returncode == 0

    def tried(self, name: str, edits: List[str]) -> Dict[str, str]:
        """The verdicts of the prover on wrong bodies of a crate, which has to be proved in the room."""
        crate = self.path / "crates" / name
        shutil.rmtree(crate / PLACES["gate"], ignore_errors=True)
        (crate / PLACES["gate"]).mkdir()
        for edit in edits:
            shutil.copy(crate / PLACES["apart"] / f"{edit}.edit", crate / PLACES["gate"])
        output = self.run(["rt", "ci", name], self.path).stdout
        verdicts = verdicts_in(name, output)
        if len(verdicts) != len(edits):
            print(output[-2000:], file=sys.stderr)
        return {edit: verdicts.get(edit, "no verdict") for edit in edits}
