"""The command line: runs what its words say, and has the status."""
from __future__ import annotations

import sys
from typing import TYPE_CHECKING, List, Optional

from . import TOOL
from .console import FAILED, WRONG_WORDS, tell

if TYPE_CHECKING:
    from .commands import Given


def main(words: List[str], tool: str) -> int:
    """Runs the words; the status. `tool` is the path of the command, beside which naplps may stand."""
    try:
        given = _read(words)
    except SystemExit as end:
        return WRONG_WORDS if end.code else 0
    except BrokenPipeError:
        raise
    except OSError as error:  # of the help, which it prints
        tell(f"standard output: {error.strerror}")
        return FAILED
    return _run(given, tool) if given else 0


def _read(words: List[str]) -> Optional[Given]:
    """What the words say; None where they ask for what is printed then: the version, or a help."""
    if words and words[0] in ("-V", "--version"):
        from naplps.version import VERSION
        sys.stdout.write(f"{TOOL} {VERSION}\n")
        return None
    from .parsing import read_words  # (which waits for argparse)
    return read_words(words)


def _run(given: Given, tool: str) -> int:
    """Runs a command; the status. It is short for the reason that pages/naplps-pages gives."""
    try:
        return int(given.run(given, tool))
    except BrokenPipeError:
        raise
    except Exception as error:  # pylint: disable=broad-except
        from .unexpected import failure_message, status_of
        tell(failure_message(error))
        return status_of(error)
