"""The crates of crates.txt, and on which others each of them stands, and their sources."""
from pathlib import Path
from typing import Dict, List


def crates_in(top: Path) -> Dict[str, List[str]]:
    """The crates of a tree, lowest first, each with the libraries that its line names."""
    found = {}
    for line in (top / "crates.txt").read_text("utf-8").splitlines():
        name, colon, needs = line.partition("#")[0].partition(":")
        if colon and name.split():
            found[name.split()[0]] = needs.split()
    return found


def below(name: str, crates: Dict[str, List[str]]) -> List[str]:
    """A crate and those of the tree that it stands on, lowest first."""
    found = {name}
    for crate in reversed([*crates]):
        if crate in found:
            found.update(need for need in crates[crate] if need in crates)
    return [crate for crate in crates if crate in found]


def sources_of(crate: Path) -> List[Path]:
    """The sources of a crate, without those of its tests."""
    paths = sorted((crate / "src").rglob("*.rt"))
    return [path for path in paths if "tests" not in path.relative_to(crate).parts and path.name != "tests.rt"]
