"""A box of pages that are almost equal, and what is found of such pages, by the names of their files."""
import json
import os

from command import file
from samples import OUTSIDE

BASE = """CLEAR
MAP 1/16 #1b4f72
RECT-FILLED 0,0 1.0,top colour=front:1/16
LINE 0.1,0.1 0.9,0.1 colour=white
TEXT pen=0.1,0.5 text=double "WEATHER"
TEXT pen=0.1,0.4 text=normal "MON 14: WET"
WAIT 5
BELL
"""
VARIANTS = {
    "words.nap": BASE.replace("MON 14: WET", "TUESDAY 15: DRY"),
    "colours.nap": BASE.replace("#1b4f72", "#000001").replace("white", "red"),
    "places.nap": BASE.replace("0.9,0.1", "0.9,0.2").replace("pen=0.1,0.4", "pen=0.2,0.4"),
    "more.nap": BASE + "POINT 0.5,0.5\nBELL\n",
    "cut.nap": BASE.replace("BELL\n", "WAIT 6\n"),
    "other.nap": "CLEAR\n" + "BELL\n" * 20}
LISTS = 1 + len(VARIANTS)
ORIGINAL = ("base.nap", "copy.nap")
GROUPS = {(what, ORIGINAL, (f"{what}.nap",)) for what in ("words", "colours", "places")}
BEGINNINGS = {(ORIGINAL, ("more.nap",), True), (("cut.nap",), ("more.nap",), False)}
PICTURES = {(ORIGINAL, ("cut.nap",))}


def make(run, source):
    """The page of a source."""
    return run(["make", "-"], source.encode()).stdout


def fill(run, folder, sources):
    """Fills a new folder with pages: these, with a copy of base.nap that is spelled otherwise, and a refused one."""
    os.mkdir(folder)
    for name, source in sources.items():
        file(folder, name, make(run, source))
    file(folder, "copy.nap", b"\x0e\x0f" + make(run, sources["base.nap"]))
    file(folder, "refused.nap", OUTSIDE)
    return str(folder)


def names(files):
    """The names of files that are told, without folders."""
    return tuple(sorted(os.path.basename(each["name"]) for each in files))


def near_found(said):
    """Groups and beginnings of what near printed as JSON."""
    groups, beginnings = set(), set()
    for row in map(json.loads, said.stdout.splitlines()):
        if "differ_in" in row:
            groups.add((row["differ_in"], *sorted(names(page["files"]) for page in row["pages"])))
        else:
            beginnings.add((names(row["beginning"]), names(row["of"]), row["last_fits"]))
    return groups, beginnings


def pictures_found(said):
    """The groups of one picture that equal printed as JSON, each of the names of each list."""
    return {tuple(sorted(names([each for spelling in some["spellings"] for each in spelling["files"]])
                         for some in json.loads(line)["lists"])) for line in said.stdout.splitlines()}
