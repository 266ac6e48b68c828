"""The command as a process: how it ends."""
import errno
import gc
import os
import signal
import sys
from typing import NoReturn

from naplps.ending import ENDING, Stopped

from .cli import main
from .console import FAILED, tell


def run(command: str) -> NoReturn:
    """The command as a process: ended by a closed pipe or a signal as other filters are, and the program with it."""
    try:
        ENDING.watch()
        _run(command)
    except Stopped as stopped:
        ENDING.end_all()
        _end_by(stopped.args[0])


def _run(command: str) -> NoReturn:
    if sys.stdout is None:
        tell(f"standard output: {os.strerror(errno.EBADF)}")
        sys.exit(FAILED)
    try:
        _end(main(sys.argv[1:], command))
    except BrokenPipeError:
        _end_by(signal.SIGPIPE)
    except ImportError as error:  # (modules are imported when a command needs them, and the system's may be too large)
        tell(f"the tool lacks something of its own or of Python, or memory for it: {error}")
        os._exit(FAILED)


def _end(status: int) -> NoReturn:
    """Ends with a status, after the last of the output. Raises Stopped where a signal came that hasn't ended it."""
    if ENDING.number is not None:
        raise Stopped(ENDING.number)
    try:
        sys.stdout.flush()
    except BrokenPipeError:
        raise
    except OSError as error:
        if status != FAILED:
            tell(f"standard output: {error.strerror}")
        os._exit(FAILED)  # (a usual end would flush again)
    ENDING.forget()
    gc.freeze()  # (else the end looks for cycles among all that was imported, which takes long)
    sys.exit(status)


def _end_by(number: int) -> NoReturn:
    signal.signal(number, signal.SIG_DFL)
    os.kill(os.getpid(), number)
    os._exit(128 + number)


def start() -> NoReturn:
    """Runs the command that was started, as pip installs it."""
    run(os.path.realpath(sys.argv[0]))


if __name__ == "__main__":
    start()
