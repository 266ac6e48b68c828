"""Where what a command makes goes, by what stands behind -o: a file, a folder, or standard output."""
import os
import sys
from argparse import Namespace
from typing import Sequence

from . import messages

# What stands for standard output.
STANDARD = "-"
# The endings of files of pages, and of what is made of one.
OF_FILES = (".nap", ".svg", ".png", ".apng", ".html", ".htm", ".txt")


def place(given: Namespace, is_of_several: bool, of_all: Sequence[str] = ()) -> None:
    """Takes what is named for a folder, `given.into`, or for a file, `given.output_file`; or for neither.

    It is a folder if it is one already, if its name ends in /, or if several pages are given; unless its name has an
    ending that stands for one file of them all.
    """
    named = None if given.output == STANDARD else given.output
    given.into = given.output_file = None
    if named is None:
        return
    is_folder = named.endswith("/") or os.path.isdir(named)
    if is_of_several and not is_folder and ending(named) in set(OF_FILES).difference(of_all):
        given.parser.error(messages.SEVERAL_PAGES)
    if is_folder or is_of_several and ending(named) not in of_all:
        given.into = named
    else:
        given.output_file = named


def place_folder(given: Namespace) -> None:
    """Takes what is named for a folder."""
    if given.output == STANDARD:
        given.parser.error(messages.NO_STANDARD_OUTPUT)
    given.into = given.output


def ending(named: str) -> str:
    """The ending of a name, in small letters."""
    return os.path.splitext(named)[1].lower()


def require_no_terminal(given: Namespace, what: str) -> None:
    """Exits where something would be printed on a terminal that isn't for one."""
    if given.into is None and given.output_file is None and sys.stdout is not None and sys.stdout.isatty():
        given.parser.error(messages.ON_TERMINAL.format(what=what))


def is_several(given: Namespace) -> bool:
    """Whether there are several pages, or a store."""
    from .collection.store_files import is_store
    return len(given.pages) > 1 or is_store(given.pages[0])
