"""What the scripts that run the program under faults share: they start it, and compare its status and both outputs."""
import contextlib
import resource
import signal
import subprocess
from typing import Any, NamedTuple, Optional, Sequence, Union

# How many seconds of a processor a command may take, so that a busy machine fails none; and how many by the clock, for
# one that waits for what never comes.
LIMIT = 60
PATIENCE = 3600
LATE = "none in time"


class Answer(NamedTuple):
    """What a run answered, or should."""

    status: Union[int, str]
    out: bytes = b""
    err: bytes = b""

    def __repr__(self) -> str:
        return f"status {self.status}, output {shown(self.out)}, error {shown(self.err)}"


def shown(text: bytes) -> str:
    """A text, or how it begins."""
    if len(text) > 100:
        return f"{text[:100]!r} and so on, {len(text)} bytes"
    return repr(text)


def fault(line: bytes, out: bytes = b"") -> Answer:
    """The answer of a run that failed."""
    return Answer(3, out, line + b"\n")


def limit_processor(number: int, seconds: int = LIMIT) -> None:
    """Has a process ended, and each that it starts from now on, once it has taken a number of seconds of a processor.
    Where root may not set the limits of another user's, that has one by the clock alone."""
    with contextlib.suppress(ProcessLookupError, PermissionError):
        resource.prlimit(number, resource.RLIMIT_CPU, (seconds, seconds + 1))


def processor_seconds() -> float:
    """The seconds of a processor that all commands have taken that were run and have ended."""
    used = resource.getrusage(resource.RUSAGE_CHILDREN)
    return used.ru_utime + used.ru_stime


def run(words: Sequence[Union[str, bytes]], text: Optional[bytes] = None, **options: Any) -> Answer:
    """Runs a command, on a text where there is one; a command that takes too long has no status."""
    options.setdefault("stdout", subprocess.PIPE)
    options.setdefault("stderr", subprocess.PIPE)
    with subprocess.Popen(words, **options) as process:
        limit_processor(process.pid)
        try:
            out, err = process.communicate(text, timeout=PATIENCE)
        except subprocess.TimeoutExpired:
            process.kill()
            out, err = process.communicate()
            return Answer(LATE, out or b"", err or b"")
        status = process.returncode
        return Answer(LATE if status == -signal.SIGXCPU else status, out or b"", err or b"")


class Judge:
    """Counts what passed and what failed, and prints a line for each group of runs."""

    def __init__(self) -> None:
        self.passed = self.failed = self.wrong = 0

    def take(self, right: bool, what: str) -> None:
        """Counts a run, and says what was wrong with it."""
        if right:
            self.passed += 1
        else:
            self.failed += 1
            self.wrong += 1
            if self.wrong <= 5:
                print(f"FAILED: {what}")

    def same(self, wanted: Answer, got: Answer, what: str) -> None:
        """Counts a run whose answer is wanted."""
        self.take(wanted == got, f"{what}: wanted {wanted}; got {got}")

    def close(self, line: str) -> None:
        """Ends a group."""
        print(f"FAILED: {line}: {self.wrong} of its runs" if self.wrong else f"ok: {line}", flush=True)
        self.wrong = 0

    def end(self) -> int:
        """Prints how many passed and failed, and answers the exit status."""
        print(f"{self.passed} passed, {self.failed} failed")
        return 1 if self.failed else 0
