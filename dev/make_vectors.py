"""Writes the answers in the files of vectors/: the rows are the source of their streams and budgets.

Each stream is read by two independent readings of docs/PROFILE.md, and by the program, which NAPLPS names (else the
launcher at the top). Where two of the three differ in anything, that is printed, no file is written, and the status
is 1. Two runs write the same bytes. A row whose answers aren't known yet is `STREAM | ? | ? | ?`, or with `budget N` at
its end; of other rows whose answers change, the places are printed. Other lines stay as they are.
"""
import os
import sys
import tempfile
from pathlib import Path
from typing import Dict, List, Tuple

from dev.layout import TOP
from dev.vectors.form import BYTES
from dev.vectors.readings import Answer, first_answers, program_tells, second_answers, told_of
from dev.vectors.rows import Vector, files, is_row, row_of, vectors_of
from dev.words import parser_of


def distinct(file: Path) -> List[Vector]:
    """The vectors of a file; raises ValueError where one has no stream, or that of another with its rule and budget."""
    found: Dict[Tuple[str, str, int], Vector] = {}
    for vector in vectors_of(file):
        if not BYTES.fullmatch(vector.stream):
            raise ValueError(f"{vector.place}: bytes were wanted: {vector.stream[:60]}")
        first = found.setdefault((vector.rule, vector.stream, vector.budget), vector)
        if first is not vector:
            raise ValueError(f"{vector.place}: the stream stands in {first.place} for the same rule")
    return list(found.values())


def answers_to(folder: Path, vectors: List[Vector]) -> List[Answer]:
    """The answers that both readings and the program agree on; exits where they don't."""
    streams = [(vector.data, vector.budget) for vector in vectors]
    first = first_answers(folder, streams)
    with tempfile.TemporaryDirectory() as temp:
        second = second_answers(folder, Path(temp), streams)
    outputs = program_tells(os.environ.get("NAPLPS", str(TOP / "naplps")), streams)
    differing = 0
    for vector, reading, machine, output in zip(vectors, first, second, outputs):
        if reading != machine or output != told_of(reading):
            differing += 1
            print(f"{vector.place}: {vector.shows}\n  {vector.stream}\n  {reading}\n  {machine}\n  {output}"[:2000])
    if differing or not len(streams) == len(first) == len(second) == len(outputs):
        sys.exit(f"{differing} of {len(streams)} streams aren't read alike")
    return first


def write(file: Path, vectors: List[Vector], answers: List[Answer]) -> None:
    """Writes a file again, with the rows of these answers; prints where a row without `?` becomes another."""
    rows = iter([(vector.place, row_of(vector, answer)) for vector, answer in zip(vectors, answers)])
    lines = file.read_text("ascii").splitlines()
    for index, line in enumerate(lines):
        if is_row(line):
            place, lines[index] = next(rows)
            if line != lines[index] and "?" not in line:
                print(f"{place}: the row is another now")
    file.write_text("".join(f"{line}\n" for line in lines), "ascii")
    print(f"{file.name}: {len(vectors)} vectors")


def main() -> int:
    """Writes each file."""
    parser = parser_of(__doc__)
    parser.add_argument("readings", metavar="READINGS", type=Path,
                        help="the folder of two readings: a module naplps_*.py, and a crate in rust")
    readings = parser.parse_args().readings.resolve()
    try:
        groups = {file: distinct(file) for file in files()}
    except ValueError as error:
        sys.exit(str(error))
    answers = answers_to(readings, [vector for group in groups.values() for vector in group])
    for file, group in groups.items():
        write(file, group, answers[:len(group)])
        del answers[:len(group)]
    return 0


if __name__ == "__main__":
    sys.exit(main())
