"""The message on an exception that nobody expected: one line, and no traceback."""
import os

from naplps.names import shown

from .console import FAILED, TOOL_FAILED

PACKAGE = os.path.dirname(os.path.abspath(__file__))
# That of the module naplps, which stands beside it.
MODULE = os.path.join(os.path.dirname(PACKAGE), "naplps")
MOST_SAID = 200
# What Python says where the system starts no thread.
NO_THREAD = "can't start new thread"
SAID = "the tool itself failed (%s): %s"


class Unexpected(Exception):
    """An exception that nobody expected, with the file that was at work."""

    def __init__(self, name: str, error: Exception) -> None:
        super().__init__(f"{shown(name)}: {failure_message(error)}")
        self.status = status_of(error)


def status_of(error: Exception) -> int:
    """The status with which that ends: one of its own where the tool itself failed."""
    is_of_system = isinstance(error, (MemoryError, ImportError)) or isinstance(error, OSError) and bool(error.errno)
    is_of_system = is_of_system or str(error) == NO_THREAD
    return FAILED if is_of_system else TOOL_FAILED


def failure_message(error: Exception) -> str:
    """What went wrong, and where in this tool; of the system's faults only its reason."""
    if isinstance(error, OSError) and error.errno:
        return os.strerror(error.errno)
    if isinstance(error, MemoryError):
        return "there is no memory for it"
    text = shown(f"{type(error).__name__}: {error}")[:MOST_SAID]
    return SAID % (_place(error), text)


def _place(error: Exception) -> str:
    """The last line of the tool or the module that it came through."""
    place, trace = "outside of it", error.__traceback__
    while trace:  # (traceback's own walk makes objects, for which there may be no memory)
        name = trace.tb_frame.f_code.co_filename
        for folder, start in ((PACKAGE, PACKAGE), (MODULE, os.path.dirname(MODULE))):
            if name.startswith(folder + os.sep):
                place = "%s line %d" % (os.path.relpath(name, start), trace.tb_lineno or 0)
        trace = trace.tb_next
    return place
