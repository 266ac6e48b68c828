"""What a command takes: seconds, processors, memory and temporary files."""
import hashlib
import os
import subprocess
import sys
import threading
import time
from typing import NamedTuple, Sequence

# With 1 something lacks, as the picture of a page in a report.
GOOD = (0, 1)
# Between two looks at the temporary files, in seconds; and what the system puts after the name of one.
LOOK, DELETED = 0.2, " (deleted)"
KEPT = 1 << 16


class Measure(NamedTuple):
    """What a command took: seconds, also of a processor, MiB of memory and of temporary files; and what it printed."""

    seconds: float
    processor: float
    peak: float
    disk: float
    said: str
    digest: str


class Looking(threading.Thread):
    """Looks how large the temporary files of a process become, which have no name any more."""

    def __init__(self, pid: int) -> None:
        super().__init__(daemon=True)
        self.folder = "/proc/%d/fd" % pid
        self.most = 0
        self.ended = threading.Event()

    def run(self) -> None:
        """Looks until it is ended."""
        while not self.ended.wait(LOOK):
            self.most = max(self.most, self._size())

    def _size(self) -> int:
        size = 0
        try:
            for name in os.listdir(self.folder):
                path = os.path.join(self.folder, name)
                if os.readlink(path).endswith(DELETED):
                    size += os.stat(path).st_size
        except OSError:
            pass  # (it has ended)
        return size


def measure(words: Sequence[str], cwd: str = ".") -> Measure:
    """Runs a command. Exits where it fails."""
    before = os.times()
    start = time.perf_counter()
    process = subprocess.Popen(words, cwd=cwd, stdout=subprocess.PIPE)
    assert process.stdout
    looking = Looking(process.pid)
    looking.start()
    said, digest = b"", hashlib.sha256()
    output = process.stdout.fileno()
    for piece in iter(lambda: os.read(output, 1 << 20), b""):
        said = (said + piece)[:KEPT]
        digest.update(piece)
    looking.ended.set()
    _, status, usage = os.wait4(process.pid, 0)
    seconds = time.perf_counter() - start
    process.returncode = status
    after = os.times()
    ended = os.waitstatus_to_exitcode(status)
    if ended not in GOOD:
        sys.exit("%s: %s: status %d" % (os.path.basename(sys.argv[0]), " ".join(words), ended))
    spent = sum(after[2:4]) - sum(before[2:4])
    return Measure(seconds, spent, usage.ru_maxrss / 1024, looking.most / (1 << 20), said.decode().strip(),
                   digest.hexdigest())
