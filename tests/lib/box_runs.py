"""What the tests of the command box share: the words that make a box, and what its tables and notes say."""
import csv
import json
import os
from typing import Dict, List

# The folders of a box.
FOLDERS = ("canonical", "readable", "captures", "carved")


def box_words(folder: "str | os.PathLike[str]", *more: str) -> List[str]:
    """The words that make the box of the folder `disks` that stands in a folder, beside it."""
    return ["box", os.path.join(folder, "disks"), "-o", os.path.join(folder, "box"), *more]


def table(place: "str | os.PathLike[str]", name: str) -> List[Dict[str, str]]:
    """The rows of a table of a box."""
    with open(os.path.join(place, name), newline="", encoding="utf-8") as rows:
        return list(csv.DictReader(rows))


def note_of(place: "str | os.PathLike[str]", path: str) -> "Dict[str, object]":
    """The note beside a file of a box."""
    with open(os.path.join(place, path + ".json"), encoding="ascii") as note:
        return dict(json.load(note))
