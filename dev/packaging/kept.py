"""The kept program and the kept parts of the library for C, in dist, and what MADE beside them says."""
import hashlib
import os
import re
import shutil
import subprocess
import sys
from pathlib import Path
from typing import Dict, List, Optional, Tuple

from dev.crates import below, crates_in
from dev.layout import TOP
from dev.packaging.keeping import keeping
from dev.packaging.made import read_made
from dev.rattle.sums import Unread, sum_of

KEPT = TOP / "dist" / "x86_64-linux-gnu"
MADE = KEPT / "MADE"
PROGRAM, ARCHIVE, HEAP = "naplps", "libnap_c.a", "liblibc_c.a"
MODES = {PROGRAM: 0o755, ARCHIVE: 0o644, HEAP: 0o644}
BUILT = TOP / "crates" / "nap_cli" / "out" / "nap_cli"
# The LLVM code of which the archive was compiled once the gate had passed.
CODE = TOP / "crates" / "nap_c" / "out" / "nap_c.bc"
VERDICT = re.compile(r"logic=proved functions=\d+ .*")
# What MADE says of a crate on which no run that was logged has a verdict.
EARLIER = "proved by an earlier run of rt ci"
LOGIC = re.compile(r".* logic (\S+)")


class NotProved(Exception):
    """Something wasn't proved, or isn't there, and why."""


def kept_crates() -> List[str]:
    """The crates of the kept program and of the kept library, lowest first."""
    crates = crates_in(TOP)
    return list(dict.fromkeys(name for product in ("nap_cli", "nap_c") for name in below(product, crates)))


def ask(*words: object, folder: Path = TOP, errors: Optional[int] = None) -> str:
    """What a command prints, and tells on standard error where that goes to STDOUT; raises NotProved where it fails."""
    try:
        said = subprocess.run([*map(str, words)], cwd=folder, stdout=subprocess.PIPE, stderr=errors, encoding="utf-8")
    except OSError as error:
        raise NotProved(f"{words[0]}: {error.strerror}") from None
    if said.returncode:
        raise NotProved(f"{' '.join(map(str, words))} failed:\n{said.stdout[-2000:].rstrip()}")
    return said.stdout.strip()


def sources_sum(crate: str) -> str:
    """The checksum of what a crate is made from, without comments and layout; raises NotProved."""
    try:
        return sum_of(TOP, crate)
    except Unread as error:
        raise NotProved(str(error)) from None


def files_sum(crate: str) -> str:
    """The checksum of the files that a crate is made from, byte by byte."""
    return ask(TOP / "scripts" / "files-sum", crate)


def file_sum(path: Path) -> str:
    """The checksum of a file."""
    return hashlib.sha256(path.read_bytes()).hexdigest()


def toolchain() -> Path:
    """The folder of the toolchain."""
    page = Path(ask("rt", "doc"))
    found = [folder for folder in page.parents if (folder / "c" / HEAP).is_file()]
    if not found:
        raise NotProved(f"the toolchain at {page.parent} has no c/{HEAP}")
    return found[0]


def heap() -> Path:
    """The toolchain's archive by which the library asks malloc, realloc and free for memory."""
    return toolchain() / "c" / HEAP


def archive() -> Path:
    """The archive of nap_c, proved by `rt lib` and compiled where that is needed."""
    folder = TOP / "crates" / "nap_c"
    ask("rt", "lib", folder=folder, errors=subprocess.STDOUT)
    return folder / "out" / ARCHIVE


def kept_library() -> Optional[Tuple[Path, Path]]:
    """The kept archive and that for the heap, where they were made from the sources that stand here."""
    made, files = read_made(MADE), (KEPT / ARCHIVE, KEPT / HEAP)
    if os.environ.get("NAPLPS_REBUILD") == "1" or not all(path.is_file() for path in files):
        return None
    if made.get("library-sources") != sources_sum("nap_c"):
        return None
    if not all(file_sum(path) == made.get(path.name) for path in files):
        print(f"{Path(sys.argv[0]).name}: {KEPT} has other bytes than its MADE says: the library is proved and built",
              file=sys.stderr)
        return None
    return files


def archive_after_gate() -> Path:
    """The archive of nap_c, once `rt ci` has passed: it is proved again over the libraries that `rt ci` left in the
    crates, and compiled. (`rt lib` doesn't take those, and would prove each crate below a second time.) The LLVM code
    of that is left beside it, as CODE. Where libraries of other commands stand there, `rt lib` makes the archive, and
    there is no CODE."""
    CODE.unlink(missing_ok=True)
    crates = crates_in(TOP)
    libraries = {name: TOP / "crates" / name / "out" / "rlib" for name in below("nap_c", crates)[:-1]}
    if any((rlib / "stamp").exists() or not (rlib / f"{name}.rlib").is_dir() for name, rlib in libraries.items()):
        return archive()
    kit, folder = toolchain(), TOP / "crates" / "nap_c"
    words = ["rattle", "build", "--crate-name", "nap_c", "src/lib.rt", "-L", f"dependency={kit}/rlibs"]
    for need in ["std", *crates["nap_c"]]:
        words += ["--extern", f"{need}={libraries.get(need, kit / 'rlibs')}/{need}.rlib"]
    for rlib in libraries.values():
        words += ["-L", f"dependency={rlib}"]
    words += ["--antt-project", f"{kit}/rattle/logic/antt-project.json", "--logic-built", f"{kit}/logic_built"]
    words += ["--links", "nap_c=", "--jobs", "2", "--crate-type", "staticlib", "--backend", "llvm"]
    (folder / "out").mkdir(exist_ok=True)
    made = folder / "out" / ARCHIVE
    made.unlink(missing_ok=True)
    with keeping(kit / "toolchain") as tools:
        words += ["--toolchain", str(tools.toolchain), "-o", str(made)]
        said = ask(*words, folder=folder, errors=subprocess.STDOUT)
        modules = tools.modules()
        if len(modules) == 1:
            shutil.copy(modules[0], CODE)
    verdicts = [line for line in said.splitlines() if VERDICT.fullmatch(line)]
    if len(verdicts) != 1 or not made.is_file():
        raise NotProved("rattle build told no verdict on nap_c")
    return made


def same_logic(one: str, other: str) -> bool:
    """Whether two toolchains, as `rt version` prints them, are the same or have the same logic."""
    first, second = LOGIC.fullmatch(one), LOGIC.fullmatch(other)
    return one == other or first is not None and second is not None and first[1] == second[1]


def verdicts_of(log: str) -> Dict[str, str]:
    """What `rt ci` told of each crate that it proved in a run: its line, by the crate. Those of tests are left out."""
    found: Dict[str, str] = {}
    crate = ""
    for line in log.splitlines():
        if line.startswith("== "):
            crate = line[3:].strip()
        elif VERDICT.fullmatch(line) and re.fullmatch(r"\w+", crate):
            found.setdefault(crate, line)
    return found
