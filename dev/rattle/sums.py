"""The checksum of what a crate is made from, over tokens: comments, blank lines and layout don't change it."""
import hashlib
from functools import lru_cache
from pathlib import Path
from typing import Dict, Iterator

from dev.crates import below, crates_in
from dev.rattle.logic import tokens_of_logic
from dev.rattle.tokens import tokens_of_rattle

PARTS = ("src", "specs", "proofs")
TOKENS = {".rt": tokens_of_rattle, ".antt": tokens_of_logic}


class Unread(Exception):
    """The sources can't be read, with the reason."""


def lines_of(top: Path) -> Dict[str, str]:
    """Each line of crates.txt with single blanks, by its crate."""
    lines = (line.partition("#")[0].replace(":", " : ").split() for line in (top / "crates.txt").open(encoding="utf-8"))
    return {words[0]: " ".join(words) for words in lines if ":" in words[1:]}


def files_in(folder: Path) -> Iterator[Path]:
    """The files below a folder; raises Unread where it is none, or has what is neither a file nor a folder."""
    if folder.is_symlink() or not folder.is_dir():
        raise Unread(f"{folder} isn't a folder")
    for path in sorted(folder.iterdir()):
        if path.is_symlink() or not (path.is_dir() or path.is_file()):
            raise Unread(f"{path} is neither a file nor a folder")
        yield from files_in(path) if path.is_dir() else (path,)


def file_sum(path: Path) -> str:
    """The checksum of a file's tokens; of one that is no source, that of its bytes."""
    data = path.read_bytes()
    if path.suffix in TOKENS:
        try:
            data = "\0".join(TOKENS[path.suffix](data.decode())).encode()
        except UnicodeDecodeError as error:
            raise Unread(f"{path}: {error}") from None
    return hashlib.sha256(data).hexdigest()


@lru_cache(maxsize=None)
def crate_sum(folder: Path) -> str:
    """The checksum of a crate's own sources, made once."""
    for place in (folder.parent, folder):
        if place.is_symlink() or not place.is_dir():
            raise Unread(f"{place} isn't a folder")
    parts = [folder / part for part in PARTS]
    found = [path for part in parts if part.is_symlink() or part.exists() for path in files_in(part)]
    lines = [f"{file_sum(path)} {path.relative_to(folder)}" for path in found]
    return hashlib.sha256("\n".join(lines).encode()).hexdigest()


def sum_of(top: Path, name: str) -> str:
    """The checksum of a crate: of its line and of those below it in crates.txt, and of their sources; raises Unread."""
    try:
        lines, crates = lines_of(top), crates_in(top)
        if name not in crates:
            raise Unread(f"crates.txt has no crate {name}")
        found = [f"{lines[crate]} {crate_sum(top / 'crates' / crate)}" for crate in sorted(below(name, crates))]
    except OSError as error:
        raise Unread(f"{error.filename}: {error.strerror}") from None
    return hashlib.sha256("\n".join(found).encode()).hexdigest()
