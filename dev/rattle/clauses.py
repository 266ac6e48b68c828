"""The clauses and definitions of the crates, and a sum over them.

What a wrong body is refused by are the clauses of src/ and the definitions of specs/, of its crate and of all crates
below. So all of a source counts but the bodies of its functions, comments, the layout and how imports are grouped.
Tests don't count.
"""
import hashlib
from pathlib import Path
from typing import Dict, Iterator

from dev.crates import below, crates_in, sources_of
from dev.rattle.items import items_in
from dev.rattle.logic import Import
from dev.rattle.tokens import Source, tokens


def without_bodies(source: Source) -> str:
    """The tokens of a source that aren't in the bodies of functions, with single blanks."""
    bodies = [item.body for item in items_in(source) if item.kind == "fn"]
    starts, ends = [*(start for start, _ in bodies), len(source.kept)], [0, *(end for _, end in bodies)]
    return tokens("".join(source.kept[end:start] for end, start in zip(ends, starts)))


def lines_of_logic(text: str) -> Iterator[str]:
    """The lines of a file of the logic, without those of comments: first what groups import, one name to a line."""
    grouped, others = [], []
    for line in filter(None, map(str.rstrip, text.splitlines())):
        found = Import.of(line)
        if found and found.names is not None and not found.alias:
            grouped += [f"{found.words} {found.module}.{name}" for name in found.names]
        elif not line.lstrip().startswith("--"):
            others.append(line)
    return iter([*sorted(grouped), *others])


def _lines_of(crate: Path) -> Iterator[str]:
    """The clauses and definitions of a crate, in an order that doesn't depend on the names of sources."""
    yield from sorted(without_bodies(Source.of(path.read_text("utf-8"))) for path in sources_of(crate))
    for path in sorted((crate / "specs").rglob("*.antt")):
        yield f"specs {path.relative_to(crate)}"
        yield from lines_of_logic(path.read_text("utf-8"))


class Sums:
    """The sums over the clauses and definitions of a repository, each made once."""

    def __init__(self, root: Path) -> None:
        self.crates = crates_in(root)
        self._root = root
        self._own: Dict[str, str] = {}

    def own(self, name: str) -> str:
        """A sum over a crate's own clauses and definitions."""
        if name not in self._own:
            text = "\n".join(_lines_of(self._root / "crates" / name))
            self._own[name] = hashlib.sha256(text.encode()).hexdigest()
        return self._own[name]

    def of(self, name: str) -> str:
        """A sum over all clauses and definitions that can refuse a crate's wrong bodies."""
        parts = [(crate, self.own(crate)) for crate in sorted(below(name, self.crates))]
        return hashlib.sha256(repr(parts).encode()).hexdigest()
