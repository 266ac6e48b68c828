"""Tries the wrong bodies of crates/NAME/wrong-bodies/, of all crates or of those named, and keeps which were refused.

One that was refused is tried again only where its text, a file that it changes, or a clause or a definition of its
crate or of one below has changed. Verdicts are kept crate by crate, so a run that was stopped continues where it was.
"""
import argparse
import shutil
import sys
import tempfile
from pathlib import Path
from typing import Dict, List, Optional, Set

from dev.crates import below, crates_in
from dev.judging import Judge, processor_seconds
from dev.layout import TOP, UNTRIED, stop
from dev.rattle.clauses import Sums
from dev.rattle.edits import Unfit, sum_of_edit
from dev.rattle.trying import REFUSED, Room
from dev.rattle.wrong_bodies import edits_apart, read_refused, write_refused
from dev.words import parser_of

# The edits of each crate that are named, or None for those that have no verdict.
Named = Dict[str, Optional[Set[str]]]


def try_crate(judge: Judge, name: str, room: Room, named: Optional[Set[str]]) -> None:
    """Tries wrong bodies of a crate, and keeps which were refused."""
    crate, sums, used = TOP / "crates" / name, Sums(room.path), processor_seconds()
    edits = edits_apart(room.path, name)
    decided_by = {edit.stem: sum_of_edit(edit, room.path / "crates" / name, sums.of(name)) for edit in edits}
    refused = {edit: total for edit, total in read_refused(crate).items() if decided_by.get(edit) == total}
    left = [edit for edit in decided_by if (edit in named if named is not None else edit not in refused)]
    print(f"{name}: {len(left)} of {len(edits)} wrong bodies are to be tried", flush=True)
    is_proved = not left or room.is_proved(name)
    answers = room.tried(name, left) if left and is_proved else dict.fromkeys(left, "not tried")
    refused.update((edit, decided_by[edit]) for edit in left)
    for edit, answer in answers.items():
        judge.take(answer == REFUSED, f"{name}: {edit}: {answer}")
        if answer != REFUSED:
            del refused[edit]
    if is_proved:
        write_refused(crate, refused)
    judge.close(f"{name}: {len(left)} refused, {processor_seconds() - used:.0f} s of a processor")


def edits_named(names: List[str], is_all: bool, parser: argparse.ArgumentParser) -> Named:
    """The edits that are named, crate by crate."""
    named: Named = {}
    for word in names or crates_in(TOP):
        name, _, edit = word.partition("/")
        if name not in crates_in(TOP):
            parser.error(f"crates.txt has no crate {name}")
        having = {path.stem for path in edits_apart(TOP, name)}
        if edit and edit not in having:
            parser.error(f"{name} has no wrong body {edit} that is tried apart")
        if edit or is_all:
            named[name] = (named.get(name) or set()) | ({edit} if edit else having)
        elif having:
            named.setdefault(name, None)
    return named


def main() -> int:
    """Tries what is asked for, lowest crate first; 0 where each wrong body is refused."""
    parser = parser_of(__doc__)
    parser.add_argument("names", nargs="*", metavar="NAME", help="a crate, or CRATE/EDIT; all crates if there is none")
    parser.add_argument("--all", action="store_true", help="try each of them, whatever has changed")
    options = parser.parse_args()
    if shutil.which("rt") is None:
        print("not tried: the toolchain's command rt isn't on PATH")
        return UNTRIED
    named = edits_named(options.names, options.all, parser)
    lowest_first = sorted(named, key=lambda name: len(below(name, crates_in(TOP))))
    judge = Judge()
    with tempfile.TemporaryDirectory(prefix="wrong-bodies-") as path:
        room = Room(TOP, Path(path))
        for name in lowest_first:
            try_crate(judge, name, room, named[name])
    return judge.end()


if __name__ == "__main__":
    try:
        sys.exit(main())
    except Unfit as reason:
        raise stop(f"{reason}: pytest tests/sources/test_wrong_bodies.py names all that is wrong") from None
