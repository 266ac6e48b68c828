"""Standard output and standard error, and the statuses with which the tool ends."""
import sys
from typing import IO, Callable, NamedTuple

from naplps.names import printable, shown

from . import TOOL

# (done, and what was asked is so; done, and it isn't; wrong words; something couldn't be read, asked or written)
ACCEPTED, REFUSED, WRONG_WORDS, FAILED = range(4)
TOOL_FAILED = 70
# Those of a command on a collection, beside FAILED.
COMPLETE, CHANGED = ACCEPTED, REFUSED


class NotWritten(Exception):
    """A file or standard output couldn't be written, with its name and the system's reason."""

    def __init__(self, name: str, reason: str) -> None:
        super().__init__(f"{shown(name)}: {reason}")
        self.name, self.reason = name, reason


class OutputLost(NotWritten):
    """Standard output couldn't be written, so that no further answer is of use."""

    def __init__(self, reason: str) -> None:
        super().__init__("standard output", reason)


def tell(text: str) -> None:
    """A line on standard error. Whatever a terminal wouldn't show as itself has an escape."""
    tell_line(f"{TOOL}: {printable(text)}")


def tell_of(name: str, why: str) -> None:
    """A line on standard error about what has this name."""
    tell(f"{shown(name)}: {why}")


def tell_line(text: str) -> None:
    """A line on standard error as it is, without the name of the tool: editors find the places of such lines."""
    try:
        sys.stderr.write(text + "\n")
        sys.stderr.flush()
    except (OSError, AttributeError):
        pass  # there is nobody left to tell


class Output(NamedTuple):
    """Standard output. A pipe that nobody reads ends the tool; other faults are reported."""

    file: IO[bytes]
    # (what is done before bytes are printed)
    before: Callable[[], None] = lambda: None

    def text(self, text: str) -> None:
        """Prints text in UTF-8."""
        self.bytes(text.encode("utf-8", "backslashreplace"))

    def line(self, text: str) -> None:
        """Prints a line."""
        self.bytes((text + "\n").encode("utf-8", "backslashreplace"))

    def bytes(self, data: bytes) -> None:
        """Prints bytes."""
        self.before()
        try:
            self.file.write(data)
        except BrokenPipeError:
            raise
        except OSError as error:
            raise OutputLost(error.strerror or str(error)) from None

    def flush(self) -> None:
        """Sends on what was printed."""
        try:
            self.file.flush()
        except BrokenPipeError:
            raise
        except OSError as error:
            raise OutputLost(error.strerror or str(error)) from None
