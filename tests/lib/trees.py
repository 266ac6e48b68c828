"""Small trees of sources with the launcher, and a toolchain that only notes its calls.

The program that this toolchain builds prints the sources that it was made from, so an answer from other sources is
seen.
"""
import hashlib
import shutil
import subprocess
import sys
import time
from pathlib import Path
from typing import Any, Dict, Optional

from dev.judging import Answer, run
from dev.layout import TOP

CRATES = """# Lowest first.
nap_low: arrayvec
nap_mid: nap_low
nap_side: nap_low
nap_c staticlib: nap_low nap_mid
nap_cli: nap_low nap_mid nap_side clap
nap_tests: nap_low
"""
# Each source, and its text.
SOURCES = {
    "nap_low/src/lib.rt": "low", "nap_low/src/inner/deep.rt": "deep", "nap_low/specs/Lib.antt": "specs",
    "nap_low/proofs/Lib.antt": "proofs", "nap_mid/src/lib.rt": "mid", "nap_side/src/lib.rt": "side",
    "nap_c/src/lib.rt": "c", "nap_cli/src/main.rt": "main", "nap_tests/src/lib.rt": "tests",
}
LOW = "nap_low/src/lib.rt"
TOOLCHAIN = r"""#!/bin/sh
echo "$1 ${PWD##*/}" >> "$CALLS"
case $1 in
    lib)
        echo "so far: 0 of 40 functions checked"
        echo "so far: 30 of 40 functions checked"
        echo "$PWD" >> "$CALLS.places"
        [ "${PWD##*/}" != nap_mid ] || sh -c "${DURING-}"
        [ "${PWD##*/}" != "${FAILS-}" ] || exit 1
        mkdir -p out/rlib && touch out/rlib/stamp
        echo "logic=proved functions=40 sum=0"
        ;;
    run)
        mkdir -p out
        echo "#!/bin/sh" > out/nap_cli
        sources=$(cat ../nap_low/src/lib.rt ../nap_low/src/inner/deep.rt src/main.rt | tr '\n' ' ')
        echo "echo $sources\"\$@\"" >> out/nap_cli
        chmod 755 out/nap_cli
        [ -z "${MEANWHILE-}" ] || sh -c "$MEANWHILE"
        ;;
esac
"""
# What the launcher runs.
FILES = (
    "naplps", "scripts/build", "scripts/files-sum", "dev/__init__.py", "dev/crates.py", "dev/layout.py",
    "dev/sources_sum.py", "dev/words.py", "dev/rattle/__init__.py", "dev/rattle/logic.py", "dev/rattle/sums.py",
    "dev/rattle/tokens.py",
)
# How the lines of the launcher on standard error begin.
OWN = ("naplps: ", "sources_sum.py: ", "files-sum: ")
SYSTEM_PATH = "/usr/bin:/bin"


class Tree:
    """A tree of sources with the launcher, and the folder of its toolchain."""

    def __init__(self, folder: Path, name: str = "tree, with blanks") -> None:
        self.top, self.calls, self.tools = folder / name, folder / f"calls of {name}", folder / "tools"
        for file in FILES:
            (self.top / file).parent.mkdir(parents=True, exist_ok=True)
            shutil.copy(TOP / file, self.top / file)
        (self.top / "HANDLES").write_text("Handles allowed: none.\n", "ascii")
        (self.top / "crates.txt").write_text(CRATES, "ascii")
        for place, text in SOURCES.items():
            self.write(place, text, pause=0)
        time.sleep(0.02)
        self.tools.mkdir(exist_ok=True)
        (self.tools / "rt").write_text(TOOLCHAIN, "ascii")
        (self.tools / "rt").chmod(0o755)
        self.calls.touch()

    @property
    def launcher(self) -> str:
        """The path of the launcher."""
        return str(self.top / "naplps")

    @property
    def dist_program(self) -> Path:
        """The path of the kept program."""
        return self.top / "dist" / "x86_64-linux-gnu" / "naplps"

    @property
    def sums(self) -> Path:
        """The path of MADE, which tells what the kept program was made from."""
        return self.dist_program.parent / "MADE"

    def write(self, place: str, text: str, pause: float = 0.02) -> Path:
        """Writes a source, later than what was written before."""
        path = self.top / "crates" / place
        path.parent.mkdir(parents=True, exist_ok=True)
        time.sleep(pause)
        path.write_text(f"{text}\n", "ascii")
        return path

    def environment(self, rt: bool = True, **more: str) -> Dict[str, str]:
        """The environment of a start, with the toolchain or without."""
        path = f"{self.tools}:{SYSTEM_PATH}" if rt else SYSTEM_PATH
        return {"PATH": path, "CALLS": str(self.calls), **more}

    def run(self, *words: str, rt: bool = True, more: Optional[Dict[str, str]] = None, text: Optional[bytes] = None,
            **options: Any) -> Answer:
        """The whole answer of the launcher; `more` is added to its environment."""
        options.setdefault("env", self.environment(rt, **(more or {})))
        options.setdefault("cwd", "/")
        return run([self.launcher, *words], text, stdin=subprocess.PIPE, **options)

    def start(self, *words: str, **options: Any) -> Answer:
        """The answer of the launcher, without the lines of its own on standard error."""
        result = self.run(*words, **options)
        others = [line for line in result.err.decode().splitlines() if not line.startswith(OWN)]
        return Answer(result.status, result.out, "\n".join(others).encode())

    def build(self) -> None:
        """Builds the program by a first start; by a second one nothing is newer than the stamp."""
        for _ in range(2):
            assert self.start() == answer()
            time.sleep(0.02)

    def builds(self) -> int:
        """How often the program was built."""
        return self.calls.read_text("ascii").count("run nap_cli\n")

    def keep(self, text: str = "kept") -> None:
        """Puts a program into dist that prints a text, as made from the sources that stand in the tree."""
        self.dist_program.parent.mkdir(parents=True, exist_ok=True)
        self.dist_program.write_text(f'#!/bin/sh\necho {text} "$@"\n', "ascii")
        self.dist_program.chmod(0o755)
        commands = {"files": [str(self.top / "scripts" / "files-sum")],
                    "sources": [sys.executable, "-E", "-s", "-B", "-m", "dev.sources_sum"]}
        lines = ["library-sources: 0", f"naplps: {hashlib.sha256(self.dist_program.read_bytes()).hexdigest()}"]
        for kind, command in commands.items():
            total = subprocess.run([*command, "nap_cli"], cwd=self.top, stdout=subprocess.PIPE, check=True).stdout
            lines.append(f"program-{kind}: {total.decode('ascii').strip()}")
        self.sums.write_text("".join(f"{line}\n" for line in lines), "ascii")


def answer(low: str = "low", deep: str = "deep", main: str = "main", words: str = "") -> Answer:
    """The answer of a program that was made from such sources."""
    return Answer(0, " ".join([low, deep, main, *words.split()]).encode() + b"\n")


def dist_answer(words: str = "") -> Answer:
    """The answer of a kept program."""
    return Answer(0, " ".join(["kept", *words.split()]).encode() + b"\n")
