"""A toolchain whose clang also keeps the LLVM modules that it is given, so that what was proved is compiled again for
another processor, and nothing is proved twice."""
import shlex
import tempfile
from contextlib import contextmanager
from pathlib import Path
from typing import Iterator, List, NamedTuple

KEEP = r"""# Keeps each LLVM module that clang is given, and is clang.
for word in "$@"; do
    if [ -f "$word" ] && [ "$(head -c 2 "$word")" = BC ]; then cp "$word" {kept}/$$.bc; fi
done
"""


class Keeping(NamedTuple):
    """The folder of such a toolchain, and the one where its clang keeps modules."""

    toolchain: Path
    kept: Path

    def modules(self) -> List[Path]:
        """The modules that were kept."""
        return sorted(self.kept.iterdir())


def link_all(folder: Path, to: Path, *others: str) -> None:
    """Makes a folder with links to all that a folder has, but for some names."""
    to.mkdir()
    for path in folder.iterdir():
        if path.name not in others:
            (to / path.name).symlink_to(path)


def link_toolchain(toolchain: Path, to: Path, script: str) -> None:
    """Makes a toolchain of links to this one, whose clang runs a script of the shell first."""
    link_all(toolchain, to, "bin")
    link_all(toolchain / "bin", to / "bin", "clang")
    clang = to / "bin" / "clang"
    clang.write_text(f'#!/bin/sh\n{script}exec {shlex.quote(str(toolchain / "bin" / "clang"))} "$@"\n', "utf-8")
    clang.chmod(0o755)


@contextmanager
def keeping(toolchain: Path) -> Iterator[Keeping]:
    """Such a toolchain, made of links to this one; it is there while the context lasts."""
    with tempfile.TemporaryDirectory(prefix="naplps-toolchain-") as folder:
        made = Keeping(Path(folder, "toolchain"), Path(folder, "kept"))
        made.kept.mkdir()
        link_toolchain(toolchain, made.toolchain, KEEP.replace("{kept}", shlex.quote(str(made.kept))))
        yield made
