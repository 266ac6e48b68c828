"""Times whole commands on large pages, and prints the tables of docs/measurements/README.md.

Without words these are the tables of each family of pages: MiB a second, and the most MiB of memory. The families are
few, of few codes, every, with every code, and dense, with many of each. NAPLPS names the program; without it the one
that the launcher at the top has built is run. NAPLPS_LIBRARY names the folder of the library; without it
library/make-library makes it. Output goes to /dev/null, and the least of the runs counts. Another program can be run
beside it, in turn, since a machine that others use too is noisy: after the speed comes its time, divided by ours, and
after our instructions its own, divided by ours. Instructions are those that a page takes beyond an empty one.
"""
import argparse
import os
import subprocess
import sys
import tempfile
import time
from pathlib import Path
from typing import Iterator, List, NamedTuple, Tuple

from dev.fuzzing.library_tests import build
from dev.layout import find_library, find_program
from dev.measuring.few_codes import LENGTH, SHORT_PAGES, short_pages
from dev.measuring.instructions import for_a_byte
from dev.measuring.large_pages import FAMILIES, KINDS, MIB, page
from dev.measuring.tables import head, row
from dev.words import parser_of

AGAIN = (sys.executable, "-m", "dev.measure_speed")
# The calls of a page charge fewer bytes than the page has.
BUDGET = 64 * MIB
FAMILY_NAMES = {"few": "few codes", "every": "every code", "dense": "many codes"}
COMMANDS = {"check": ["check"], "canon --stream": ["canon", "--stream"], "canon": ["canon"], "list": ["list"]}


def budgeted(words: List[str]) -> List[str]:
    """The words of a command with a budget that no page passes."""
    return [*words, "--budget", str(BUDGET)]


class Run(NamedTuple):
    """What a run took: seconds, those of a processor, and MiB at its peak."""

    seconds: float
    processor: float
    peak: float


def run(program: str, words: List[str], name: str) -> Run:
    """What a command takes on a file."""
    command = [program, *words]
    with open(name, "rb") as source, open(os.devnull, "wb") as sink:
        start = time.perf_counter()
        process = subprocess.Popen(command, stdin=source, stdout=sink, stderr=subprocess.PIPE)
        assert process.stderr is not None
        told = process.stderr.read()
        _, status, usage = os.wait4(process.pid, 0)
        seconds = time.perf_counter() - start
    if os.waitstatus_to_exitcode(status) != 0:
        sys.exit(f"measure_speed: {program} {' '.join(words)}: {told.decode(errors='replace').strip()}")
    return Run(seconds, usage.ru_utime + usage.ru_stime, usage.ru_maxrss / 1024)


def asked(command: str) -> bytes:
    """The requests for a command."""
    line = f"{command} {BUDGET} {LENGTH}\n".encode()
    return b"".join(line + made for made in short_pages())


def requests(program: str, count: int) -> None:
    """The table of `batch`: microseconds of a processor for a page, the least of the runs."""
    head("Request", "microseconds a page", "peak MiB")
    with tempfile.TemporaryDirectory() as room:
        for command in ("check", "list", "canon", "places"):
            name = os.path.join(room, command)
            with open(name, "wb") as file:
                subprocess.run([*AGAIN, "--asked", command], stdout=file, check=True)
            runs = [run(program, ["batch"], name) for _ in range(count)]
            least_time = min(each.processor for each in runs) / SHORT_PAGES * 1e6
            row(f"`{command}`", f"{least_time:.1f}", f"{max(each.peak for each in runs):.0f}")


def calls(count: int) -> None:
    """Microseconds a call of the library on the pages of `batch`: the least of the runs."""
    head("Call", "microseconds")
    with tempfile.TemporaryDirectory() as room:
        program = build(Path(room), "speed", find_library().absolute(), ["-O2"])
        told = subprocess.run([program, str(count)], input=asked("check"), stdout=subprocess.PIPE, check=True).stdout
    for line in told.decode().splitlines():
        name, time_of_call = line.split()
        row(f"`naplps_{name.replace('form1', 'canon_form1')}`", time_of_call)


def least(runs: List[Run]) -> Tuple[float, float]:
    """The least time of some runs, and the most memory."""
    return min(each.seconds for each in runs), max(each.peak for each in runs)


def measured(words: str, given: argparse.Namespace, program: str, name: str) -> Tuple[str, str]:
    """What a command takes on a page: MiB a second, and how many times as fast that is as the other program; and the
    most memory of both."""
    ours, theirs = [], []
    for _ in range(given.runs):
        ours.append(run(program, budgeted(COMMANDS[words]), name))
        if given.beside:
            theirs.append(run(given.beside, budgeted(COMMANDS[words]), name))
    seconds, peak = least(ours)
    speed = os.path.getsize(name) / MIB / seconds
    if not given.beside:
        return f"{speed:.0f}", f"{peak:.0f}"
    other, other_peak = least(theirs)
    return f"{speed:.0f}, {other / seconds:.2f}", f"{peak:.0f}, {other_peak:.0f}"


def head_of_commands(title: str) -> None:
    """Prints the head of a table with a column for each command."""
    print(f"{title}:\n")
    head("Page", *(f"`{words}`" for words in COMMANDS))


def pages_of(family: str, given: argparse.Namespace, folder: str) -> Iterator[Tuple[str, str]]:
    """Each kind of page with the name of its file, which stands there until the next one is asked for."""
    for kind in given.kinds or KINDS:
        name = os.path.join(folder, kind)
        # (by another process: what this one holds would count for the program that it starts)
        with open(name, "wb") as file:
            making = [*AGAIN, "--page", kind, "--family", family, "--size", f"{given.size // 1024}k"]
            subprocess.run(making, stdout=file, check=True)
        yield kind, name
        os.remove(name)


def tables(family: str, given: argparse.Namespace, program: str) -> None:
    """The tables of whole commands on large pages: how fast they are, and their memory."""
    beside = ", and how many times as fast as the other program" if given.beside else ""
    head_of_commands(f"Pages of {FAMILY_NAMES[family]}, MiB a second{beside}")
    peaks = {}
    with tempfile.TemporaryDirectory() as folder:
        for kind, name in pages_of(family, given, folder):
            found = [measured(words, given, program, name) for words in COMMANDS]
            row(kind, *(speed for speed, _ in found))
            peaks[kind] = [peak for _, peak in found]
    print()
    head_of_commands(f"most MiB of memory{', and those of the other program' if given.beside else ''}")
    for kind, cells in peaks.items():
        row(kind, *cells)
    print()


def instructions(words: str, given: argparse.Namespace, program: str, name: str) -> str:
    """The instructions of a command for each byte of a page, and those of the other program, divided by ours."""
    ours = for_a_byte(program, budgeted(COMMANDS[words]), name)
    if not given.beside:
        return f"{ours:.1f}"
    return f"{ours:.1f}, {for_a_byte(given.beside, budgeted(COMMANDS[words]), name) / ours:.2f}"


def counts(family: str, given: argparse.Namespace, program: str) -> None:
    """The table of instructions for each byte."""
    beside = ", and how many times as many the other program takes" if given.beside else ""
    head_of_commands(f"Pages of {FAMILY_NAMES[family]}, instructions for each byte{beside}")
    with tempfile.TemporaryDirectory() as folder:
        for kind, name in pages_of(family, given, folder):
            row(kind, *(instructions(words, given, program, name) for words in COMMANDS))
    print()


def size_of(text: str) -> int:
    """The bytes of a size, which is in MiB, or in KiB with a k after it; raises ValueError."""
    number = int(text[:-1]) * 1024 if text.endswith("k") else int(text) * MIB
    if number <= 0:
        raise ValueError(text)
    return number


def arguments() -> argparse.Namespace:
    """What the command line asks for."""
    parser = parser_of(__doc__)
    parser.add_argument("kinds", nargs="*", metavar="KIND", help=f"the pages: of {', '.join(KINDS)}; all if none")
    parser.add_argument("--family", choices=FAMILIES, help="the family of pages; all, or few for a page alone")
    parser.add_argument("--size", type=size_of, default=16 * MIB, help="of a page: MiB, or KiB with a k after it (16)")
    parser.add_argument("--runs", type=int, default=5, metavar="N", help="how many runs (5)")
    parser.add_argument("--beside", metavar="PROGRAM", help="another program with the same commands")
    parser.add_argument("--count", action="store_true", help="the tables of instructions for each byte, by valgrind")
    parser.add_argument("--requests", action="store_true", help="the table of batch: microseconds a page, peak memory")
    parser.add_argument("--library", action="store_true", help="the table of the library: microseconds a call")
    parser.add_argument("--page", choices=KINDS, help="a page alone, on standard output")
    parser.add_argument("--asked", metavar="COMMAND", help="the requests to batch alone, on standard output")
    given = parser.parse_args()
    for kind in given.kinds:
        if kind not in KINDS:
            parser.error(f"there is no kind {kind}")
    return given


def main() -> int:
    """Prints the table that is asked for, or makes what a table is of."""
    given = arguments()
    if given.page:
        sys.stdout.buffer.write(page(given.family or "few", given.page, given.size))
    elif given.asked:
        sys.stdout.buffer.write(asked(given.asked))
    elif given.library:
        calls(given.runs)
    elif given.requests:
        requests(str(find_program()), given.runs)
    else:
        for family in [given.family] if given.family else FAMILIES:
            (counts if given.count else tables)(family, given, str(find_program()))
    return 0


if __name__ == "__main__":
    sys.exit(main())
