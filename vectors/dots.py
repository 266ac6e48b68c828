"""Vectors of dots: what entries paint. README.md beside this file tells the format."""
import hashlib
import re
import subprocess
from pathlib import Path
from typing import Dict, Iterator, List, NamedTuple, Optional, Tuple

ACROSS, UP, DOT = 256, 200, 32768
DIRECT, MARK = 1 << 24, 1 << 25
KNOWN = {".": DIRECT, "#": DIRECT | 0xFFFFFF}
# A coordinate in dots, beside a comma: 3d is 98304, and 3.5d is 114688.
IN_DOTS = re.compile(r"(?<=,)(-?[0-9.]+)d\b|(-?[0-9.]+)d(?=,)")


class Vector(NamedTuple):
    """What it shows, its lines, the inks of dots by their letters, the lower left dot of a part of the picture and that
    part, colours of addresses, and the hash of the whole."""

    name: str
    lines: List[str]
    inks: Dict[str, int]
    corner: Tuple[int, int]
    rows: List[str]
    colours: Dict[int, int]
    hash: str


def vectors(path: Path) -> Iterator[Vector]:
    """The vectors of a file."""
    for text in re.split(r"^== ", path.read_text("utf-8"), flags=re.MULTILINE)[1:]:
        name, *rest = text.rstrip("\n").split("\n")
        it = Vector(name, [], dict(KNOWN), (0, 0), [], {}, "")
        for line in filter(None, rest):
            word, _, behind = line.partition(" ")
            if word == "ink":
                letter, number = behind.split()
                it.inks[letter] = int(number)
            elif word == "dots":
                x, y = behind.split(",")
                it = it._replace(corner=(int(x), int(y)))
            elif word == "colour":
                address, colour = map(int, behind.split())
                it.colours[address] = colour
            elif word == "hash":
                it = it._replace(hash=behind)
            else:
                (it.rows if set(line) <= set(it.inks) else it.lines).append(line)
        yield it._replace(lines=[IN_DOTS.sub(_steps, line) for line in it.lines])


def _steps(found: "re.Match[str]") -> str:
    return str(round(float(found[1] or found[2]) * DOT))


def wrong(program: str, it: Vector) -> Optional[str]:
    """What is wrong with what a program paints."""
    said = subprocess.run([program], input="\n".join([*it.lines, ""]).encode("ascii"), stdout=subprocess.PIPE,
                          stderr=subprocess.PIPE)
    if said.returncode:
        return f"status {said.returncode}: {said.stderr[:200]!r}"
    try:
        told = [list(map(int, line.split())) for line in said.stdout.decode("ascii").splitlines()]
    except ValueError:
        return "it prints other than numbers"
    rows, pairs = told[:UP], told[UP:]
    if [len(row) for row in rows] != [ACROSS] * UP or any(len(pair) != 2 for pair in pairs):
        return "it doesn't print 200 lines of 256 inks, and then addresses with their colours"
    colours = {address: colour for address, colour in pairs}
    return _wrong_dots(it, rows) or _wrong_colours(it, rows, colours)


def _wrong_dots(it: Vector, rows: List[List[int]]) -> Optional[str]:
    if not it.rows:
        return None
    left, low = it.corner
    wanted = {(left + i, low + len(it.rows) - 1 - j): it.inks[letter]
              for j, row in enumerate(it.rows) for i, letter in enumerate(row)}
    for j, row in enumerate(rows):
        for i, ink in enumerate(row):
            if ink != wanted.get((i, j), DIRECT):
                return f"dot {i},{j} has the ink {ink}, not {wanted.get((i, j), DIRECT)}"
    return None


def _wrong_colours(it: Vector, rows: List[List[int]], colours: Dict[int, int]) -> Optional[str]:
    for address, colour in it.colours.items():
        if colours.get(address) != colour:
            return f"address {address} has the colour {colours.get(address)}, not {colour}"
    numbers = [1, *(ink & ~MARK for row in rows for ink in row)]
    numbers += [number for pair in sorted(colours.items()) for number in pair]
    found = hashlib.sha256(b"".join(number.to_bytes(4, "big") for number in numbers)).hexdigest()
    return f"the hash is {found}" if it.hash and found != it.hash else None


def tried(program: str, files: List[Path]) -> Tuple[int, int]:
    """How many vectors there are, and how many a program paints so; the others are printed."""
    every = [it for path in files for it in vectors(path)]
    right = 0
    for it in every:
        why = wrong(program, it)
        right += why is None
        if why is not None:
            print(f"{it.name}: {why}")
    return len(every), right
