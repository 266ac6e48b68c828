"""Builds the tests of tests/library/ with the library, static or shared."""
import subprocess
from pathlib import Path
from typing import List, Sequence

from dev.layout import LIBRARY, TOP, stop

TESTS = TOP / "tests" / "library"
# For a test with the allocator of refusing.h.
WRAPPED = ["-Wl,--wrap=malloc,--wrap=realloc,--wrap=free"]
STRICT = ["-std=c11", "-g", "-Wall", "-Wextra", "-Wpedantic", "-Werror", "-Wl,--fatal-warnings", "-I", str(LIBRARY)]


def build(folder: Path, name: str, library: Path, options: Sequence[str] = (), shared: bool = False) -> Path:
    """Builds a test into a folder, and tells where it is; a shared library is found where it stands."""
    kind = "shared" if shared else "static"
    made = folder / f"{name}-{kind}{len(list(folder.iterdir()))}"
    found = ["-L", str(library), "-lnaplps", f"-Wl,-rpath,{library}"] if shared else [str(library / "libnaplps.a")]
    words = ["cc", *STRICT, *options, "-o", str(made), str(TESTS / f"{name}.c"), *found]
    said = subprocess.run(words, stdout=subprocess.PIPE, stderr=subprocess.STDOUT, encoding="utf-8")
    if said.returncode != 0:
        raise stop(f"cc can't build {name}.c:\n{said.stdout[-2000:]}")
    return made


def linked_symbols(file: Path, *options: str) -> List[str]:
    """The names that `nm` tells of a file, sorted."""
    said = subprocess.run(["nm", *options, str(file)], stdout=subprocess.PIPE, check=True, encoding="ascii").stdout
    return sorted(line.split()[-1].partition("@")[0] for line in said.splitlines() if len(line.split()) > 1)
