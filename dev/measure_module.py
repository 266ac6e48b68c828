"""Times the module naplps on mixed pages of 650 bytes, over the library and over the program.

It prints for docs/measurements/README.md how many microseconds of a processor a call takes, those of the program
included: the least of the runs. NAPLPS_LIBRARY names the library, or the folder that has it; NAPLPS names the program.
Without them those are taken that are built here.
"""
import argparse
import os
import resource
import subprocess
import sys
import time
from itertools import islice
from typing import Callable, Iterator, List, Optional

from dev.measuring.few_codes import short_pages
from dev.measuring.tables import head, row
from dev.words import parser_of

PAGES = 1000
CALLS = ("check", "canon", "lines", "entries", "places", "canon_form1", "is_plain")


def spent() -> float:
    """The seconds of a processor that this process and those that it ended have taken."""
    ended = resource.getrusage(resource.RUSAGE_CHILDREN)
    return time.process_time() + ended.ru_utime + ended.ru_stime


def least(call: Callable[[bytes], object], data: List[bytes], end: Callable[[], None], runs: int) -> float:
    """Microseconds a call, the least of the runs; each run ends the processes that it had."""
    times = []
    for _ in range(runs):
        start = spent()
        for page in data:
            call(page)
        end()
        times.append(spent() - start)
    return min(times) / len(data) * 1e6


def measured(runs: int) -> Iterator[Optional[float]]:
    """The time of each call, None where there is none, over what the variables name."""
    import naplps
    from naplps.backends import ProgramBackend, found
    teller, data = found(), [*islice(short_pages(), PAGES)]
    end = teller.close if isinstance(teller, ProgramBackend) else lambda: None
    for name in CALLS:
        try:
            yield least(getattr(naplps, name), data, end, runs)
        except naplps.Unavailable:
            yield None


def column(library: Optional[str], runs: int) -> List[str]:
    """The times over the library, or over the program, by a process of its own."""
    told = dict(os.environ) if library is None else {**os.environ, "NAPLPS_LIBRARY": library}
    words = [sys.executable, "-m", "dev.measure_module", "--runs", str(runs), "--column"]
    return subprocess.run(words, env=told, stdout=subprocess.PIPE, check=True, text=True).stdout.split("\n")


def main() -> int:
    """Prints the table, or a column of it."""
    parser = parser_of(__doc__)
    parser.add_argument("--runs", type=int, default=5, metavar="N", help="how many runs (5)")
    parser.add_argument("--column", action="store_true", help=argparse.SUPPRESS)
    given = parser.parse_args()
    if given.column:
        print("\n".join("" if it is None else "%.1f" % it for it in measured(given.runs)))
        return 0
    head("Call", "over the library", "over the program")
    for name, first, second in zip(CALLS, column(None, given.runs), column("", given.runs)):
        row(f"`{name}`", first, second)
    return 0


if __name__ == "__main__":
    sys.exit(main())
