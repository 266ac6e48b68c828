"""The files MADE, which say what a folder of dist was made from: on each line a name, and its value."""
from pathlib import Path
from typing import Dict

from dev.layout import File


def read_made(path: Path) -> Dict[str, str]:
    """The values of MADE by their names; empty where there is no such file."""
    if not path.is_file():
        return {}
    lines = (line.partition(": ") for line in path.read_text("utf-8").splitlines())
    return {name: value for name, _, value in lines}


def made_of(values: Dict[str, str]) -> File:
    """MADE with these values, by their names."""
    return File("".join(f"{name}: {value}\n" for name, value in values.items()).encode(), 0o644)
