"""Commands of which a stream is a terminal."""
import os
import pty
import subprocess
from typing import Any, Dict, NamedTuple, Sequence


class OnTerminal(NamedTuple):
    """The status of a command, what its terminal showed, and what it printed on its other stream."""

    status: int
    shown: bytes
    printed: bytes


def on_terminal(words: Sequence[str], stream: str, **more: Any) -> OnTerminal:
    """Runs a command of which this stream, stdout or stderr, is a terminal; the other one is a pipe."""
    ours, theirs = pty.openpty()
    shown = b""
    streams: Dict[str, Any] = {"stdout": subprocess.PIPE, "stderr": subprocess.PIPE, stream: theirs, **more}
    with subprocess.Popen(words, stdin=subprocess.DEVNULL, **streams) as process:
        os.close(theirs)
        try:
            while True:
                shown += os.read(ours, 65536)
        except OSError:  # (so a terminal ends, of which the other side is closed)
            pass
        printed, complaint = process.communicate()
    os.close(ours)
    return OnTerminal(process.returncode, shown, printed or complaint or b"")
