"""Runs a program beside the library of faults.c, which makes its calls fail."""
import subprocess
from pathlib import Path
from typing import IO, Callable, Dict, Iterator, NamedTuple, Sequence, Union

from dev.judging import Answer, run
from fault_pages import Page, Words

SOURCE = Path(__file__).with_name("faults.c")
LIBRARY = "faults.so"
# No run has more calls of a kind.
MAX_CALLS = 10000


class Result(NamedTuple):
    """The number of the first call that fails, the answer, and a letter for each fault that was met."""

    number: int
    answer: Answer
    letters: str

    def __str__(self) -> str:
        return f"call {self.number}, faults {self.letters!r}: {self.answer}"


class Faults:
    """A program; and a folder with the library, and with each page that the program has read."""

    def __init__(self, program: str, folder: Path) -> None:
        self.program = program
        self.folder = folder

    def run(self, page: Page, words: Words, **faults: int) -> Result:
        """Runs a command on a page with these faults."""
        path = self.folder / (page.name + (".hex" if "--hex" in words else ".nap"))
        if not path.exists():
            path.write_bytes(page.input(words))
        with open(path, "rb") as source:
            return self.run_other([self.program, *words], source, **faults)

    def run_other(self, words: Sequence[str], source: Union[int, IO[bytes]] = subprocess.DEVNULL,
                  **faults: int) -> Result:
        """Runs any program with these faults."""
        with open(self.folder / "report", "w+b", buffering=0) as report:
            number = report.fileno()
            # (by a path from the folder, since a library's name may have no space)
            env = {"LD_PRELOAD": f"./{LIBRARY}", "FAULTS_REPORT": str(number)}
            env.update((f"FAULTS_{name.upper()}", str(value)) for name, value in faults.items())
            answer = run(words, stdin=source, cwd=self.folder, env=env, pass_fds=[number])
            report.seek(0)
            return Result(first_of(faults), answer, report.read().decode())

    def in_turn(self, kind: str, page: Page, words: Words, **faults: int) -> Iterator[Result]:
        """The results where the first call of a kind fails, where the second does, and so on; the last met no fault,
        and gave the whole answer."""
        return until_none(kind, page.answer(words), lambda **first: self.run(page, words, **first, **faults))


def first_of(faults: Dict[str, int]) -> int:
    """The number of the call that fails."""
    return next((faults[kind] for kind in ("read", "write", "error", "memory") if kind in faults), 0)


def until_none(kind: str, expected: Answer, run_one: Callable[..., Result]) -> Iterator[Result]:
    """The results of runs in which another call of a kind fails, until none does; that has the expected answer."""
    for number in range(1, MAX_CALLS):
        result = run_one(**{kind: number})
        if not result.letters:
            assert number > 1, f"no {kind} failed"
            assert result.answer == expected, f"{kind}: {result}, expected {expected}"
            return
        yield result
    raise AssertionError(f"more than {MAX_CALLS} calls: {kind}")


def build_library(folder: Path) -> None:
    """Builds the library into a folder."""
    subprocess.run(["cc", "-std=c11", "-O2", "-Wall", "-Wextra", "-fPIC", "-shared", "-o", str(folder / LIBRARY),
                    str(SOURCE), "-ldl"], check=True)
