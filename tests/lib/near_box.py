"""A box of unrelated pages, among which beginnings and pages are planted that differ in one thing alone; and what near
has to find in it. Pages are lists here, whose lines are those of docs/PROFILE.md.

`PYTHONPATH=python python3 tests/lib/near_box.py FOLDER COUNT` writes such a box, a thousand pages in each folder of it.
"""
import os
import sys
from random import Random
from typing import Dict, FrozenSet, Iterator, List, NamedTuple, Set, Tuple

import naplps as nap

LETTERS = "ABCDEFGHIJKLMNOPQRSTUVWXYZ0123456789"
SIZES = ("small", "normal", "double")
MOST_VARIANTS = 3
Lines = List[str]
Group = Tuple[str, FrozenSet[str]]


class PlantedBox(NamedTuple):
    """The pages by their names, as lines or, where they were cut, as bytes; and what near has to find among them."""

    pages: Dict[str, bytes]
    groups: Set[Group]
    beginnings: Set[Tuple[str, str, bool]]
    counts: Dict[str, int]


def point(by: Random) -> str:
    """A point of the screen."""
    return f"{by.randrange(nap.ONE)},{by.randrange(nap.ONE * 25 // 32)}"


def direct(by: Random) -> str:
    """A colour."""
    return f"direct:{by.randrange(65536)},{by.randrange(65536)},{by.randrange(65536)}"


class Run(NamedTuple):
    """Words at a place, in a colour."""

    pen: str
    look: str
    words: str

    def lines(self) -> Lines:
        """The lines."""
        return [f"CHAR primary {ord(letter):02x} pen={self.pen if number == 0 else 'after'} {self.look}"
                for number, letter in enumerate(self.words)]


def words(by: Random) -> str:
    """Words by chance."""
    return " ".join("".join(by.choice(LETTERS) for _ in range(by.randrange(2, 9))) for _ in range(by.randrange(1, 5)))


class Sheet(NamedTuple):
    """A page: shapes, each with its word, its points and the rest of its line, and the texts between them."""

    parts: Tuple[object, ...]

    def lines(self) -> Lines:
        """The lines."""
        found: Lines = ["CLEAR pen=start"]
        for part in self.parts:
            found += part.lines() if isinstance(part, Run) else [" ".join(filter(None, part))]  # type: ignore[arg-type]
        return found

    def changed(self, changes: Dict[int, object]) -> "Sheet":
        """The page with other parts in place of these."""
        return Sheet(tuple(changes.get(number, part) for number, part in enumerate(self.parts)))

    def numbers(self, of_runs: bool) -> List[int]:
        """The numbers of the runs, or of the shapes."""
        return [number for number, part in enumerate(self.parts) if isinstance(part, Run) == of_runs]


def shape(by: Random) -> Tuple[str, str, str]:
    """A shape: its word, its points, its attributes."""
    kind, count = by.choice((("LINE", 2), ("RECT-FILLED", 2), ("RECT-OUTLINED", 2), ("POLY-FILLED", by.randrange(3, 7)),
                             ("ARC-OUTLINED", 3)))
    return kind, " ".join(point(by) for _ in range(count)), f"pel=0,0 colour={direct(by)} texture=0/none"


def run(by: Random) -> Run:
    """Words by chance at a place by chance."""
    return Run(point(by), f"colour={direct(by)} text=0,0/{by.choice(SIZES)}/----", words(by))


def sheet(by: Random) -> Sheet:
    """A page by chance, of at least twelve shapes and two runs."""
    parts = [shape(by) for _ in range(by.randrange(12, 30))] + [run(by) for _ in range(by.randrange(2, 6))]
    by.shuffle(parts)
    return Sheet(tuple(parts))


def some(by: Random, numbers: List[int]) -> List[int]:
    """One or more of these numbers."""
    return by.sample(numbers, by.randrange(1, len(numbers) + 1))


def other_words(by: Random, it: Sheet) -> Sheet:
    """The page with other words."""
    return it.changed({at: it.parts[at]._replace(words=words(by)) for at in some(by, it.numbers(True))})


def other_colours(by: Random, it: Sheet) -> Sheet:
    """The page with other colours."""
    def change(part: object) -> object:
        if isinstance(part, Run):
            return part._replace(look=f"colour={direct(by)} " + part.look.split(" ", 1)[1])
        kind, points, ink = part
        return kind, points, f"pel=0,0 colour={direct(by)} texture=0/none"
    return it.changed({at: change(it.parts[at]) for at in some(by, list(range(len(it.parts))))})


def other_places(by: Random, it: Sheet) -> Sheet:
    """The page with other places."""
    def change(part: object) -> object:
        if isinstance(part, Run):
            return part._replace(pen=point(by))
        kind, points, ink = part
        return kind, " ".join(point(by) for _ in points.split(" ")), ink
    return it.changed({at: change(it.parts[at]) for at in some(by, list(range(len(it.parts))))})


def otherwise(by: Random, it: Sheet) -> Sheet:
    """A page that differs in two things, or in one that isn't looked for: near finds nothing of it."""
    way = by.randrange(4)
    if way == 0:
        return other_colours(by, other_words(by, it))
    if way == 1:
        return other_places(by, other_colours(by, it))
    at = by.choice(it.numbers(False))
    kind, points, ink = it.parts[at]
    if way == 2:
        return it.changed({at: (kind, points, ink.replace("pel=0,0", "pel=9,9"))})
    return it.changed({at: ("POLY-FILLED", f"{points} {point(by)} {point(by)}", ink)})


VARIANTS = {"words": other_words, "colours": other_colours, "places": other_places}


def cut(by: Random, lines: Lines) -> Tuple[Lines, bool]:
    """A beginning of eight entries or more; now and then its last one ends in another point, as where a transfer was
    cut and padded."""
    found = lines[:by.randrange(8, len(lines))]
    words = found[-1].split(" ")
    points = [at for at, word in enumerate(words) if word.replace(",", "").isdigit() and "," in word]
    if points and by.random() < 0.5:
        x, y = words[points[-1]].split(",")
        words[points[-1]] = f"{int(x) // 8 * 8},{(int(y) // 4096 * 4096 + 4096) % (nap.ONE // 2)}"
        found[-1] = " ".join(words)
    return found, found[-1] == lines[len(found) - 1]


def is_within_last_run(part: Lines, rest: Lines) -> bool:
    """Whether what a beginning lacks is characters of its last run alone: then it differs in words too."""
    look = part[-1].split(" ", 4)[4:]
    return part[-1].startswith("CHAR") and all(line.split(" ", 4)[3:] == ["pen=after", *look] for line in rest)


def planted(count: int, seed: int) -> PlantedBox:
    """A box of at least so many pages."""
    by, box = Random(seed), PlantedBox({}, set(), set(), {})
    kinds = ["nothing"] * 4 + ["beginning"] * 2 + ["short", "otherwise", "words", "colours", "places"]
    while len(box.pages) < count:
        kind, it, base = by.choice(kinds), sheet(by), f"{len(box.pages):06}.nap"
        lines = it.lines()
        box.pages[base] = nap.make(lines)
        for name, page in others(by, kind, it, base, box):
            box.pages[name] = nap.make(page)
        box.counts[kind] = box.counts.get(kind, 0) + 1
    return box


def others(by: Random, kind: str, it: Sheet, base: str, box: PlantedBox) -> Iterator[Tuple[str, Lines]]:
    """The pages that are planted beside one; what near has to find of them is noted."""
    names = [base.replace(".", f"{letter}.") for letter in "abc"[:by.randrange(1, MOST_VARIANTS + 1)]]
    lines = it.lines()
    if kind in VARIANTS:
        pages = [VARIANTS[kind](by, it).lines() for _ in names]
        yield from zip(names, pages)
        box.groups.add((kind, frozenset([base, *names])))
    elif kind == "beginning":
        part, fits = cut(by, lines)
        yield names[0], part
        box.beginnings.add((names[0], base, fits))
        if fits and is_within_last_run(part, lines[len(part):]):
            box.groups.add(("words", frozenset((base, names[0]))))
    elif kind == "short":
        yield names[0], lines[:by.randrange(1, 8)]
    elif kind == "otherwise":
        yield names[0], otherwise(by, it).lines()


def write(folder: str, count: int, seed: int = 1) -> PlantedBox:
    """Writes a box into a folder."""
    box = planted(count, seed)
    for number, (name, page) in enumerate(box.pages.items()):
        path = os.path.join(folder, f"{number // 1000:03}")
        os.makedirs(path, exist_ok=True)
        with open(os.path.join(path, name), "wb") as file:
            file.write(page)
    return box


if __name__ == "__main__":
    made = write(sys.argv[1], int(sys.argv[2]))
    print(len(made.pages), "pages,", len(made.groups), "groups,", len(made.beginnings), "beginnings:", made.counts)
