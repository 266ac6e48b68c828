"""Has the toolchain plant wrong bodies in crates, by `rt plant`, and compares what gets through with what is known.

Wrong bodies that meet a contract, functions without a clause, and functions that no plant tests are findings. Each is
in docs/measurements/plants.tsv, with why it is harmless or what would exclude it; a new one is a failure, and so is one
that isn't found any more where all plants were tried.
"""
import shutil
import sys
import tempfile
from pathlib import Path

from dev.crates import crates_in
from dev.judging import Judge, processor_seconds
from dev.layout import TOP, UNTRIED
from dev.rattle.plants import TABLE, differences, known_in, planted_in
from dev.rattle.trying import Room
from dev.words import parser_of


def main() -> int:
    """Plants in the crates that are named, or in all; 0 where nothing new got through."""
    parser = parser_of(__doc__)
    parser.add_argument("names", nargs="*", metavar="NAME", help="a crate of crates.txt; all if there is none")
    parser.add_argument("--minutes", type=int, default=10, metavar="N", help="at most N minutes a crate (10)")
    parser.add_argument("--max", type=int, default=400, metavar="N", help="at most N plants a crate (400)")
    options = parser.parse_args()
    if shutil.which("rt") is None:
        print("not tried: the toolchain's command rt isn't on PATH")
        return UNTRIED
    known, judge = known_in(TOP / TABLE), Judge()
    with tempfile.TemporaryDirectory(prefix="plants-") as path:
        room = Room(TOP, Path(path))
        for name in options.names or crates_in(TOP):
            used = processor_seconds()
            command = ["rt", "plant", "--max", str(options.max), "--minutes", str(options.minutes), "--jobs", room.jobs]
            output = room.run(command, room.path / "crates" / name).stdout
            planted = planted_in(name, output)
            wrong = [*differences(name, planted, known)] if planted else [f"nothing was planted:\n{output[-2000:]}"]
            judge.passed += planted.functions if planted else 0
            if wrong:
                judge.take(False, "\n".join(wrong))
            counts = planted.counts if planted else name
            judge.close(f"{counts}, {processor_seconds() - used:.0f} s of a processor")
    return judge.end()


if __name__ == "__main__":
    sys.exit(main())
