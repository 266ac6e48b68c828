"""Writes the completions of naplps-pages and the synopses of its manual page, of what its commands declare."""
import sys
from pathlib import Path
from typing import Dict

from dev.layout import TOP
from dev.packaging import completions
from dev.words import parser_of

MANUAL = TOP / "man" / "naplps-pages.1"
BEGIN, END = ".Sh SYNOPSIS\n", ".Sh DESCRIPTION\n"


def texts() -> Dict[Path, str]:
    """The text of each file."""
    manual = MANUAL.read_text("utf-8")
    begin, end = manual.index(BEGIN) + len(BEGIN), manual.index(END)
    folder = TOP / "completions"
    return {
        folder / "naplps-pages.bash": completions.bash(), folder / "_naplps-pages": completions.zsh(),
        folder / "naplps-pages.fish": completions.fish(),
        MANUAL: manual[:begin] + completions.synopsis() + manual[end:]}


def main() -> int:
    """Writes the files, or compares them."""
    parser = parser_of(__doc__)
    parser.add_argument("--check", action="store_true", help="write nothing, and name the files that differ: status 1")
    is_check, status = parser.parse_args().check, 0
    for path, text in texts().items():
        if not is_check:
            path.write_text(text, "utf-8")
        elif path.read_text("utf-8") != text:
            print(f"{path.relative_to(TOP)} isn't as the commands declare: python3 -m dev.completions writes it")
            status = 1
    return status


if __name__ == "__main__":
    sys.exit(main())
