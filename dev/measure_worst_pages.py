"""Makes the pages that cost most for their length and their budget, and runs the program on them.

Prints the tables of docs/measurements/README.md. Of each run it also judges the answer, with the number of entries that
follows from how the page is made; the bytes that come out; and the memory. NAPLPS names the program; without it the
launcher at the top is run.
"""
import os
import subprocess
import sys
import tempfile
import time
from typing import List, Sequence, Tuple

from dev.judging import Judge
from dev.layout import find_program
from dev.measuring.costly_pages import (
    CALLED, POLYGONS, UNCALLED, Kind, Made, Maker, bells, circles, crowded, descents, drcs_repeats, endless, fields,
    plain_repeats, polygons, rectangles, wide_repeats,
)
from dev.measuring.tables import head, row
from dev.words import parser_of

KIB = 1024
MIB = 1024 * KIB
USUAL = MIB
LARGEST = 64 * MIB
SMALL = 64 * KIB

# The most that check may hold beside what bodies within bodies take.
STILL = 16 * MIB
# What each byte of the budget beyond the usual one may add to that: a body that is being read has 24 bytes, and was
# charged two.
DEEP = 12
# The address space that a run may have, and the one that is too small for the longest text.
SPACE = 8192 * MIB
NARROW = 256 * MIB

# Runs the program once, with standard input and output from files, and prints its status, time and memory. The program
# is this helper's only child; what it shares with the helper before it starts is small.
HELPER = """
import os, resource, sys
child = os.fork()
if child == 0:
    resource.setrlimit(resource.RLIMIT_AS, (int(sys.argv[4]), int(sys.argv[4])))
    os.dup2(os.open(sys.argv[1], os.O_RDONLY), 0)
    os.dup2(os.open(sys.argv[2], os.O_WRONLY | os.O_CREAT | os.O_TRUNC, 0o600), 1)
    os.dup2(os.open(sys.argv[3], os.O_WRONLY | os.O_CREAT | os.O_TRUNC, 0o600), 2)
    os.execv(sys.argv[5], sys.argv[5:])
status = os.waitstatus_to_exitcode(os.waitpid(child, 0)[1])
used = resource.getrusage(resource.RUSAGE_CHILDREN)
print(status, used.ru_utime + used.ru_stime, used.ru_maxrss)
"""


class Trial:
    """The program under test, and what was judged so far."""

    def __init__(self, program: str, folder: str) -> None:
        self.program = program
        self.page, self.out, self.told = (os.path.join(folder, name) for name in ("page", "out", "told"))
        self.judge = Judge()

    def once(self, words: Sequence[str], space: int = SPACE) -> Tuple[int, float, int]:
        """One run: its status, its time in seconds of a processor, and its peak memory in bytes."""
        files = [self.page, self.out, self.told]
        helper = [sys.executable, "-I", "-S", "-c", HELPER, *files, str(space), self.program, *words]
        told = subprocess.run(helper, stdout=subprocess.PIPE, check=True).stdout.split()
        return int(told[0]), float(told[1]), int(told[2]) * KIB

    def run(self, name: str, made: Made, command: str, budget: int) -> Tuple[float, int]:
        """Runs the command up to three times on the page, and judges it. The least time, and the most memory."""
        self.write(made.page.hex().encode() if "--hex" in command else made.page)
        words = command.split() + ([] if budget == USUAL else ["--budget", str(budget)])
        started = time.monotonic()
        least, peak = float("inf"), 0
        for _ in range(3):
            status, taken, memory = self.once(words)
            least = min(least, taken)
            peak = max(peak, memory)
            if time.monotonic() - started > 3:
                break
        what = f"{name}, {command}, {len(made.page)} bytes, budget {budget}"
        self.judge_answer(what, made, command, status)
        kept = {"list": 2 * len(made.page), "canon": made.text, "check --hex": 8 * len(made.page)}.get(command, 0)
        most = STILL + DEEP * max(0, budget - USUAL) + kept
        self.judge.take(peak < most, f"{what}: memory: {peak} bytes, and not below {most}")
        return least, peak

    def stops(self, made: Made) -> None:
        """Judges that a text that is too long for its memory is refused."""
        self.write(made.page)
        status, _, _ = self.once(["canon"], NARROW)
        with open(self.told, "rb") as told:
            error = told.read().decode()
        print(f"\nThe longest text in {shown_length(NARROW)}: {error}", end="", flush=True)
        right = status == 1 and error.startswith("refused 21 Memory at ") and os.stat(self.out).st_size == 0
        self.judge.take(right, f"a text that is too long for its memory: {status}, {error}")

    def write(self, page: bytes) -> None:
        """Writes the page that the program reads."""
        with open(self.page, "wb") as file:
            file.write(page)

    def judge_answer(self, what: str, made: Made, command: str, status: int) -> None:
        """Judges the answer of a run."""
        with open(self.told, "rb") as told, open(self.out, "rb") as out:
            error, first = told.read().decode(), out.read(100).decode("ascii", "replace")
        answer: Tuple[object, ...] = status, first, error
        expected: Tuple[object, ...] = 0, f"accepted {made.entries} entries\n", ""
        if made.refusal is not None:
            answer = status, first if command.startswith("check") else error
            expected = 1, made.refusal + "\n"
        elif not command.startswith("check"):
            answer = status, os.stat(self.out).st_size, error
            expected = 0, made.lines if command == "list" else made.text, ""
        self.judge.take(answer == expected, f"{what}: {answer}, but computed {expected}")


def shown_bytes(count: int) -> str:
    """A number of bytes, as the tables have it."""
    if count >= 1e9:
        return f"{count / 1e9:.2f} GB"
    if count >= 99.95e6:
        return f"{count / 1e6:.0f} MB"
    return f"{count / 1e6:.1f} MB"


def shown_time(seconds: float) -> str:
    """A time, as the tables have it."""
    return f"{seconds:.2f} s" if seconds < 9.95 else f"{seconds:.0f} s"


def shown_length(length: int) -> str:
    """The length of a page, as the tables have it."""
    return f"{length // MIB} MiB" if length >= MIB else f"{length // KIB} KiB"


def pages_of(families: Sequence[Kind], *lengths: int) -> List[Tuple[str, Maker, int]]:
    """A page of each family in each length."""
    return [(name, make, length) for name, make in families for length in lengths]


def table_of_check(trial: Trial, pages: Sequence[Tuple[str, Maker, int]], budget: int,
                   command: str = "check") -> None:
    """Prints the table of what `check` costs."""
    head("Page", "Bytes in", "Charged", "Entries", "Entries for a byte", "Time", "Memory")
    for name, make, length in pages:
        made = make(length, budget)
        least, peak = trial.run(name, made, command, budget)
        each = made.entries / (length + made.charged)
        row(name, shown_length(length), f"{made.charged:,}",
            f"{made.entries:,}" if made.refusal is None else "refused", f"{each:.2f}", shown_time(least),
            shown_bytes(peak))


def table_of_output(trial: Trial, pages: Sequence[Tuple[str, Maker, str, int, int]]) -> None:
    """Prints the table of what lists and texts cost."""
    head("Page", "Command", "Bytes in", "Charged", "Entries", "Bytes out", "Bytes for a byte", "Time", "Memory")
    for name, make, command, length, budget in pages:
        made = make(length, budget)
        least, peak = trial.run(name, made, command, budget)
        out = made.lines if command == "list" else made.text
        row(name, f"`{command}`", shown_length(length), f"{made.charged:,}", f"{made.entries:,}", shown_bytes(out),
            f"{out / (length + made.charged):.0f}", shown_time(least), shown_bytes(peak))


def largest_pages() -> List[Tuple[str, Maker, int]]:
    """The slowest pages, long enough to be charged with the largest budget, and the one that holds most."""
    slowest = (plain_repeats, rectangles, circles, fields, endless, descents)
    pages = pages_of([kind for kind in CALLED if kind[1] in slowest], 2 * KIB)
    return pages + pages_of([kind for kind in CALLED if kind[1] == crowded], 2 * KIB, MIB)


def outputs(widest: bool) -> List[Tuple[str, Maker, str, int, int]]:
    """Pages whose lists or texts are longest."""
    widths = [
        ("widest characters by REPEAT", wide_repeats, "list", KIB, SMALL),
        ("widest characters by REPEAT", wide_repeats, "canon", KIB, USUAL),
        ("DRCS characters by REPEAT", drcs_repeats, "canon", KIB, SMALL),
        ("DRCS characters by REPEAT", drcs_repeats, "canon", KIB, USUAL),
        ("DRCS characters by REPEAT", drcs_repeats, "canon --stream", KIB, USUAL),
        ("rectangles of one word", rectangles, "list", KIB, USUAL),
        ("rectangles of one word", rectangles, "canon", KIB, USUAL),
        ("rectangles of one word", rectangles, "canon --stream", MIB, USUAL),
        (POLYGONS, polygons, "list", 32 * KIB, USUAL),
        (POLYGONS, polygons, "canon", 32 * KIB, USUAL),
        (POLYGONS, polygons, "canon --stream", 32 * KIB, USUAL),
    ]
    if widest:
        widths.append(("widest characters by REPEAT", wide_repeats, "list", KIB, USUAL))
    return widths


def main() -> int:
    """Prints the tables, and judges each run."""
    parser = parser_of(__doc__)
    parser.add_argument("--widest", action="store_true",
                        help="with the longest list of a page of 1 KiB under the usual budget, which is 2.15 GB")
    widest = parser.parse_args().widest
    program = str(find_program().absolute())
    with tempfile.TemporaryDirectory() as folder:
        trial = Trial(program, folder)
        trial.write(b"")
        _, taken, memory = trial.once(["check"])
        print(f"An empty page: {shown_time(taken)}, {shown_bytes(memory)}")
        lengths = (KIB, 32 * KIB, MIB)
        print(f"\ncheck, with the usual budget of {USUAL:,}:")
        table_of_check(trial, pages_of(CALLED, *lengths), USUAL)
        print("\ncheck, of pages without calls:")
        table_of_check(trial, pages_of(UNCALLED, 32 * KIB, MIB), USUAL)
        print(f"\ncheck, with the largest budget, {LARGEST:,}:")
        table_of_check(trial, largest_pages(), LARGEST)
        print("\ncheck, of hexadecimal text:")
        table_of_check(trial, pages_of([("bells", bells)], *lengths), USUAL, "check --hex")
        print("\nlist and canon:")
        table_of_output(trial, outputs(widest))
        trial.stops(drcs_repeats(KIB, USUAL))
        print()
    return trial.judge.end()


if __name__ == "__main__":
    sys.exit(main())
