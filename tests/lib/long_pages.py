"""Two pages of 64 MiB, and runs on them, whose output is compared as it comes, and whose memory is measured."""
import resource
import subprocess
import threading
import time
from pathlib import Path
from typing import IO, Iterator, NamedTuple, Optional, Sequence, Tuple

from dev.judging import PATIENCE, limit_processor

MEBIBYTE = 1024 * 1024
LENGTH = 64 * MEBIBYTE
# How many points the one page has. Its first byte is SO; the other page has fill that draws nothing.
POINTS = (LENGTH - 4) // 4
# A run has 2,048 points.
RUN_POINTS = 2048
CENTRE = bytes.fromhex("2652") + b"@" * 7
RUN = CENTRE[:1] + CENTRE[1:] * RUN_POINTS


def centres(count: int) -> bytes:
    """The canonical text of a number of points in the middle: runs as long as they may be."""
    runs, rest = divmod(count, RUN_POINTS)
    return RUN * runs + (RUN[: 1 + 8 * rest] if rest else b"")


def blocks(piece: bytes, count: int) -> Iterator[bytes]:
    """A number of equal pieces, in blocks."""
    for _ in range(count // 65536):
        yield piece * 65536
    yield piece * (count % 65536)


def write_long(folder: Path) -> None:
    """Writes the two long pages."""
    with open(folder / "points.nap", "wb") as file:
        file.writelines([b"\x0e", *blocks(b"&R@@", POINTS), b"\x00" * 3])
    with open(folder / "fill.nap", "wb") as file:
        file.writelines(blocks(b"\x00", LENGTH))


def compared(source: "IO[bytes]", header: bytes, piece: bytes) -> Tuple[int, bool]:
    """How many bytes a pipe has, and whether they are a header and equal pieces after it; keeps none of them."""
    block = piece * (1 + 589824 // len(piece))
    count, is_same, rest = 0, True, header
    for part in iter(lambda: source.read(MEBIBYTE), b""):
        count += len(part)
        while part:
            rest = rest or block
            size = min(len(part), len(rest))
            is_same = is_same and part[:size] == rest[:size]
            part, rest = part[size:], rest[size:]
    return count, is_same


class Gauge(threading.Thread):
    """Looks every few milliseconds at the greatest memory of a process, in KiB."""

    def __init__(self, number: int) -> None:
        super().__init__()
        self.number = number
        self.peak = 0

    def run(self) -> None:
        """Looks until the process is gone."""
        while True:
            try:
                with open(f"/proc/{self.number}/status", encoding="ascii") as status:
                    lines = [line.split() for line in status if line.startswith("VmHWM:")]
            except OSError:
                return
            if not lines:
                return
            self.peak = int(lines[0][1])
            time.sleep(0.02)


class LongRun(NamedTuple):
    """The status and the standard error of a run; the length of its output, and whether it is as expected; and the
    greatest memory of the process, in KiB."""

    status: int
    stderr: bytes
    length: int
    is_same: bool
    peak: int


def run_long(words: Sequence[str], page: Path, header: bytes, piece: bytes, limit: Optional[int] = None) -> LongRun:
    """Runs a command on a long page, and compares its output with a header and pieces after it."""
    def lessen() -> None:
        if limit is not None:
            resource.setrlimit(resource.RLIMIT_AS, (limit, limit))

    with open(page, "rb") as source, open(page.with_name("stderr"), "w+b") as stderr, subprocess.Popen(
            words, preexec_fn=lessen, stdin=source, stdout=subprocess.PIPE, stderr=stderr) as process:
        limit_processor(process.pid, 120)
        gauge, watch = Gauge(process.pid), threading.Timer(PATIENCE, process.kill)
        gauge.start()
        watch.start()
        assert process.stdout is not None
        length, is_same = compared(process.stdout, header, piece)
        status = process.wait()
        watch.cancel()
        gauge.join()
        stderr.seek(0)
        return LongRun(status, stderr.read(), length, is_same, gauge.peak)
