"""Shows that each wrong body of the gate does what its name says, by two streams: one that its program answers rightly,
and one that it answers wrongly.

The streams are in dev/rattle/streams.tsv, with the command that reads them. The program is built with the edit and no
proof, and its answers are compared with those of the program that NAPLPS names. What was tried is kept there by a sum
over the edit, the tokens of the files that it changes, and the streams, so only what changed is tried again. `rows` is
for calls that no command makes: their streams are rows of nap_rows.
"""
import shutil
import sys
import tempfile
from pathlib import Path
from typing import List, Optional

from dev.judging import Judge
from dev.layout import TOP, UNTRIED, find_program
from dev.packaging.kept import NotProved
from dev.rattle.edits import make
from dev.rattle.streams import FILE, Pair, answer_of, edit_of, pairs_of, sum_of_pair
from dev.rattle.unproved import build
from dev.tables import write_rows
from dev.words import parser_of


def fault_of(pair: Pair, program: Path) -> Optional[str]:
    """What is wrong with the two streams of an edit, or None."""
    with tempfile.TemporaryDirectory(prefix="streams-") as path:
        try:
            wrong = build(TOP, Path(path).resolve(), lambda top: make(edit_of(TOP, pair), top / "crates" / pair.crate))
        except NotProved as reason:
            return f"it can't be built: {reason}"
        if answer_of(wrong, pair.command, pair.right) != answer_of(program, pair.command, pair.right):
            return "it answers the first stream wrongly"
        if answer_of(wrong, pair.command, pair.wrong) == answer_of(program, pair.command, pair.wrong):
            return "it answers the second stream rightly"
    return None


def changed(pairs: List[Pair]) -> List[str]:
    """The edits that changed since their streams were tried."""
    return [pair.edit for pair in pairs if pair.command != "rows" and pair.tried != sum_of_pair(TOP, pair)]


def main() -> int:
    """Tries the edits that are named, or those that weren't tried as they are; 0 where each does what it says."""
    parser = parser_of(__doc__)
    parser.add_argument("edits", nargs="*", metavar="EDIT", help="an edit of the gate; those that changed if none")
    options = parser.parse_args()
    if shutil.which("rt") is None:
        print("not tried: the toolchain's command rt isn't on PATH")
        return UNTRIED
    program, pairs, judge = find_program(), pairs_of(TOP), Judge()
    for name in options.edits or changed(pairs):
        pair = next((pair for pair in pairs if pair.edit == name), None)
        if pair is None:
            parser.error(f"{FILE} has no edit {name}")
        fault = fault_of(pair, program)
        judge.take(fault is None, f"{name}: {fault}")
        judge.close(f"{name} does what it says")
        if fault is None:
            pairs = [row._replace(tried=sum_of_pair(TOP, row)) if row.edit == name else row for row in pairs_of(TOP)]
            write_rows(TOP / FILE, Pair._fields, pairs)
    return judge.end()


if __name__ == "__main__":
    sys.exit(main())
