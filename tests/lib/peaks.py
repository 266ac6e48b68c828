"""The most memory that a command takes."""
import subprocess
import sys
from typing import Any, Sequence, Tuple

# (a process begins with what the one had that starts it; so one in between starts the command)
STARTER = """
import resource, subprocess, sys
status = subprocess.run(sys.argv[1:]).returncode
print(status, resource.getrusage(resource.RUSAGE_CHILDREN).ru_maxrss, file=sys.stderr)
"""


def with_peak(words: Sequence[str], **more: Any) -> "Tuple[subprocess.CompletedProcess[bytes], int]":
    """A command that has ended, and the most memory that one of its processes had, in bytes."""
    ran = subprocess.run([sys.executable, "-c", STARTER, *words], capture_output=True, **more)
    *told, last = ran.stderr.splitlines(keepends=True)
    status, kibibytes = map(int, last.split())
    return subprocess.CompletedProcess(words, status, ran.stdout, b"".join(told)), kibibytes << 10
