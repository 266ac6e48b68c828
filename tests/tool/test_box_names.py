"""Names of what a box makes: no path is given twice, none ends the box, and note and table say which one a file has."""
import hashlib
import json
import os
import re
import shutil
from pathlib import Path
from random import Random

import pytest

from box_runs import box_words, note_of, table
from command import NOBODY, file
from folders import files_in
from naplps_pages.free_names import FreeNames, folds_case
from packers import pack
from samples import POINT, SPELLED, with_parity
from scans import tree
from spelled import image_with_logo, logo

NSR = b"\x1f@@"
SICK, OTHER = POINT + b"\x1a", SPELLED + b"\x1a"
# How a note ends, of which the time was taken away.
ENDS = re.compile(rb",\n\n}")
ROOT_ALONE = pytest.mark.skipif(os.geteuid() != 0, reason="only root can be another user")


def boxed(run, folder, *roots):
    """A box of folders, and what was told on standard error; the same again, where it is made again."""
    place = str(folder / "box")
    words = ["box", *roots, "-o", place] if roots else box_words(folder)
    ran = run(words)
    assert ran.returncode == 0, ran
    before = files_in(place)
    again = run(words)
    assert (again.returncode, again.stdout, again.stderr) == (0, ran.stdout, ran.stderr)
    after = files_in(place)
    assert {name for name in before if before[name] != after[name]} <= {b"box.db", b"kept.db"}
    return place, ran.stderr.decode()


def require_all(place, sources):
    """Looks whether each file that has a copy has its own, and each page that was cut out of one, by note and table;
    the paths. `sources` has the bytes of files that were cut."""
    paths = []
    for row in table(place, "files.csv"):
        if row["treated_hash"]:
            with open(os.path.join(place, row["readable"]), "rb") as copy:
                assert hashlib.sha256(copy.read()).hexdigest() == row["treated_hash"], row
            note = note_of(place, row["readable"])
            assert note["source_name"] == row["name"] and note["copy"]["sha256"] == row["treated_hash"]
            paths.append(row["readable"])
    for row in table(place, "cut.csv"):
        at, end = int(row["offset"]), int(row["offset"]) + int(row["bytes"])
        with open(os.path.join(place, row["path"]), "rb") as part:
            assert part.read() == sources[os.path.basename(row["source"])][at:end], row
        note = note_of(place, row["path"])
        assert (note["source_name"], note["offset"]) == (row["source"], at)
        paths.append(row["path"])
    assert len(paths) == len(set(paths)) and not set(paths) & {path + ".json" for path in paths}
    for path in paths:
        assert note_of(place, path).get("path", path) == path
    return paths


def taken(place, usual, path):
    return f"naplps-pages: {place}/{usual}: this name is taken: {place}/{path} is made in its place\n"


def test_captures_that_would_have_the_same_parts(run, tmp_path):
    some = {"two": POINT + NSR + SPELLED, "two.nap": SPELLED + NSR + POINT + NSR + POINT}
    tree(tmp_path / "disks", some)
    place, told = boxed(run, tmp_path)
    assert sorted(require_all(place, some)) == [
        "captures/two (2)-001.nap", "captures/two (2)-002.nap", "captures/two (2)-003.nap", "captures/two-001.nap",
        "captures/two-002.nap"]
    assert told == taken(place, "captures/two-001.nap", "captures/two (2)-001.nap")
    assert note_of(place, "captures/two (2)-003.nap")["path"] == "captures/two (2)-003.nap"
    assert "path" not in note_of(place, "captures/two-001.nap")


def test_a_file_that_has_the_name_of_another_ones_note(run, tmp_path):
    tree(tmp_path / "disks", {"a": SICK, "a.json": OTHER, "a.json.json": SICK, "a (2).json": SICK})
    place, told = boxed(run, tmp_path)
    paths = require_all(place, {})
    assert sorted(paths) == ["readable/a", "readable/a (2).json", "readable/a (3).json", "readable/a.json.json"]
    assert told == taken(place, "readable/a.json", "readable/a (3).json")
    assert {row["name"] for row in table(place, "files.csv") if row["readable"]} == {
        f"{tmp_path}/disks/{name}" for name in ("a", "a.json", "a.json.json", "a (2).json")}


def test_a_member_of_a_pack_and_a_file_that_is_named_as_it(run, tmp_path):
    tree(tmp_path / "disks", {"x.tar!m": SICK})
    pack(tmp_path / "disks" / "x.tar", {"m": OTHER})
    place, told = boxed(run, tmp_path)
    assert sorted(require_all(place, {})) == ["readable/x.tar!m", "readable/x.tar!m (2)"]
    assert told == taken(place, "readable/x.tar!m", "readable/x.tar!m (2)")


def test_folders_of_one_name_and_one_that_has_the_name_with_a_number(run, tmp_path):
    roots = [tree(tmp_path / top, {name + "/f": data}) + "/" + name for top, name, data in (
        ("p", "a", SICK), ("q", "a", OTHER), ("r", "a (2)", with_parity(POINT)), ("s", "a (2)", OTHER))]
    place, _ = boxed(run, tmp_path, *roots)
    assert len(require_all(place, {})) == 4
    rows = {row["name"]: row["readable"] for row in table(place, "files.csv")}
    assert rows == {roots[0] + "/f": "readable/a/f", roots[1] + "/f": "readable/a (3)/f",
                    roots[2] + "/f": "readable/a (2)/f", roots[3] + "/f": "readable/a (2) (2)/f"}


def test_a_folder_that_has_the_name_of_a_note(run, tmp_path):
    tree(tmp_path / "disks", {"a": SICK, "a.json/b": OTHER, "a.json/c/b": SICK, "a (2).json/b": SICK})
    place, told = boxed(run, tmp_path)
    assert len(require_all(place, {})) == 4
    assert told == taken(place, "readable/a.json", "readable/a (3).json") or told == (
        taken(place, "readable/a.json", "readable/a (2).json")
        + taken(place, "readable/a (2).json", "readable/a (2) (2).json"))


def test_a_folder_of_an_earlier_run_in_place_of_a_note(run, tmp_path):
    tree(tmp_path / "disks", {"a.json/b": OTHER})
    place, told = boxed(run, tmp_path)
    assert told == "" and require_all(place, {}) == ["readable/a.json/b"]
    tree(tmp_path / "disks", {"a": SICK})
    place, told = boxed(run, tmp_path)
    assert told == taken(place, "readable/a", "readable/a (2)")
    assert sorted(require_all(place, {})) == ["readable/a (2)", "readable/a.json/b"]


LONG = {"of ASCII": "n" * 252, "of 255 bytes": "n" * 255, "of two bytes each": "\u00e9" * 127,
        "with an ending": "n" * 250 + ".nap", "of no UTF-8": os.fsdecode(b"\xff" * 255)}


@pytest.mark.parametrize("kind", LONG)
def test_a_name_that_is_too_long_is_shortened(run, tmp_path, kind):
    name = LONG[kind]
    other = name[:-5] + "x" + name[-4:]
    tree(tmp_path / "disks", {name: SICK, other: OTHER, "c/" + name: POINT + NSR + SPELLED,
                              "d/" + name: image_with_logo(),
                              "short": SICK})
    place, told = boxed(run, tmp_path)
    assert told.count(": this name is too long: ") == 4, told
    wanted = {"readable": [POINT, POINT, SPELLED], "captures": [POINT, SPELLED], "carved": [logo()]}
    for folder, pages in wanted.items():
        made = files_in(os.path.join(place, folder))
        notes = {path: json.loads(ENDS.sub(b"\n}", made[path + b".json"])) for path in made if path + b".json" in made}
        assert sorted(made[path] for path in notes) == sorted(pages) and len(made) == 2 * len(pages)
        for path, note in notes.items():
            source = bytes.fromhex(note["source_name_hex"]) if "source_name_hex" in note else os.fsencode(
                note["source_name"])
            given = bytes.fromhex(note["path_hex"]) if "path_hex" in note else os.fsencode(note.get("path", ""))
            is_usual = source.endswith(b"/short")
            assert given == (b"" if is_usual else os.fsencode(folder) + b"/" + path), note
            assert len(os.path.basename(path)) <= 255 and (is_usual or b"~" in path)
            has_ending = folder != "readable" or kind == "with an ending"
            assert is_usual or os.path.splitext(path)[1] == (b".nap" if has_ending else b"")


def test_a_path_that_is_too_long_is_shortened(run, tmp_path):
    deep = "/".join(["d" * 200] * 20)
    (tmp_path / "disks").mkdir()
    pack(tmp_path / "disks" / "x.tar", {deep + "/page": SICK, deep + "/n/page": OTHER, "page": SICK})
    place, told = boxed(run, tmp_path)
    assert len(require_all(place, {})) == 3 and told.count(": this name is too long: ") == 2


@pytest.mark.parametrize("kind", ["a link", "a link to nothing", "a pipe", "a folder"])
def test_what_is_no_file_in_place_of_one_gets_its_name_alone(run, tmp_path, kind):
    tree(tmp_path / "disks", {"a": SICK, "b/c": OTHER})
    victim = file(tmp_path, "victim", b"mine")
    words, place = box_words(tmp_path), str(tmp_path / "box")
    assert run(words).stderr == b""
    shutil.rmtree(tmp_path / "box" / "readable")
    (tmp_path / "box" / "readable").mkdir()
    for name in ("a", "b"):
        path = os.path.join(place, "readable", name)
        {"a link": lambda: os.symlink(victim, path), "a link to nothing": lambda: os.symlink(victim + "2", path),
         "a pipe": lambda: os.mkfifo(path), "a folder": lambda: os.makedirs(path + "/mine")}[kind]()
    ran = run(words)
    assert ran.returncode == 0 and run(words).stderr == ran.stderr
    assert not os.path.lexists(victim + "2") and sorted(require_all(place, {})) == [
        "readable/a (2)", "readable/b/c" if kind == "a folder" else "readable/b (2)/c"]
    wanted = taken(place, "readable/a", "readable/a (2)")
    if kind != "a folder":
        wanted += taken(place, "readable/b", "readable/b (2)")
    assert ran.stderr.decode() == wanted
    assert Path(victim).read_bytes() == b"mine"


@ROOT_ALONE
def test_a_folder_that_may_not_be_written_loses_its_own_files_alone(run_as_nobody, tmp_path):
    tree(tmp_path / "work" / "disks", {"a": SICK, "b/c": OTHER})
    for path in (tmp_path / "work", *(tmp_path / "work").rglob("*")):
        os.chown(path, NOBODY, NOBODY)
    words = ("box", "disks", "-o", "box")
    assert run_as_nobody(*words, cwd=str(tmp_path / "work")).returncode == 0
    shut = tmp_path / "work" / "box" / "readable" / "b"
    for name in ("c", "c.json"):
        (shut / name).unlink()
    os.chown(shut, 0, 0)
    tree(tmp_path / "work" / "disks", {"d": SICK})
    ran = run_as_nobody(*words, cwd=str(tmp_path / "work"))
    assert ran.returncode == 3 and ran.stderr.decode() == "".join(
        f"naplps-pages: box/readable/b/{name}: Permission denied\n" for name in ("c.json", "c"))
    assert (tmp_path / "work" / "box" / "readable" / "d").read_bytes() == POINT
    assert len(table(str(tmp_path / "work" / "box"), "files.csv")) == 3 and len(ran.stdout.splitlines()) == 10


def test_the_commands_on_a_store_give_no_path_twice(run, tmp_path):
    tree(tmp_path / "disks", {"a": SICK, "a.json": OTHER, "x.tar!m": SICK, "two": POINT + NSR + SPELLED,
                              "two.nap": SPELLED + NSR + POINT})
    pack(tmp_path / "disks" / "x.tar", {"m": OTHER})
    store, to = str(tmp_path / "s.db"), str(tmp_path / "to")
    assert run(["scan", str(tmp_path / "disks"), "-o", store], keeps="repair").returncode == 0
    for way, wanted in (
            ("repair", {b"a": POINT, b"a (2).json": SPELLED, b"x.tar!m": SPELLED, b"x.tar!m (2)": POINT}),
            ("split", {b"two-001.nap": POINT, b"two-002.nap": SPELLED, b"two (2)-001.nap": SPELLED,
                       b"two (2)-002.nap": POINT})):
        said = run(["fix", store, "--only", way, "-o", to + way])
        assert said.returncode < 3 and said.stderr.count(b": this name is taken: ") == len(wanted) // 2 - (
            way == "split"), said
        made = files_in(to + way)
        pages = {name: data for name, data in made.items() if name + b".json" in made}
        assert {tuple(sorted(pages.values()))} == {tuple(sorted(wanted.values()))} and set(pages) == set(wanted)
        assert {json.loads(made[name + b".json"])["path"].encode() for name in wanted if b"(2)" in name} == {
            name for name in wanted if b"(2)" in name}
    said = run(["show", store, "-o", to + "show"])
    assert said.returncode < 3 and {b"x.tar!m.svg", b"x.tar!m (2).svg", b"a.svg", b"a.json.svg"} < set(
        files_in(to + "show"))


NAMES = ("a", "A", "a.json", "a (2)", "a (2).json", "a.json.json", "b.", "b", "n" * 254, "n" * 255, "\u00e9" * 127)


def given(tmp_path, chance, folds):
    """Paths by chance, the files that are made of each, and what a file system with such names then has."""
    told = []
    free = FreeNames(str(tmp_path), lambda name, why: told.append((name, why)), folds=folds)
    wanted = sorted({"/".join(chance.choice(NAMES) for _ in range(chance.randrange(1, 4))) for _ in range(60)})
    paths = [(path, free.of(path, lambda stem: [stem, stem + ".json"])) for path in wanted]
    return paths, told


@pytest.mark.parametrize("folds", [False, True])
def test_paths_by_chance_can_all_be_made(tmp_path, folds):
    chance = Random(11)
    for number in range(40):
        top = tmp_path / str(number)
        top.mkdir()
        paths, told = given(top, chance, folds)
        made = [each for _, path in paths for each in (path, path + ".json")]
        for path in made:
            os.makedirs(top / os.path.dirname(path), exist_ok=True)
            os.close(os.open(top / path, os.O_WRONLY | os.O_CREAT | os.O_EXCL))
        if folds:
            folded = [path.casefold().rstrip(".") for path in made]
            assert len(folded) == len(set(folded))
        assert folds or all(path == wanted for wanted, path in paths if not told)


def test_a_file_system_that_folds_cases(tmp_path):
    free = FreeNames(str(tmp_path), lambda *_: None, folds=True)
    names = [free.of(name, lambda stem: [stem]) for name in ("A.NAP", "a.nap", "d/x", "D/X", "e\u0301", "\u00e9")]
    assert names == ["A.NAP", "a (2).nap", "d/x", "D/X (2)", "e\u0301", "\u00e9 (2)"]
    plain = FreeNames(str(tmp_path), lambda *_: None)
    assert plain.of("no file", lambda _: []) == "no file"
    assert [plain.of(name, lambda stem: [stem]) for name in ("A.NAP", "a.nap")] == ["A.NAP", "a.nap"]
    assert not folds_case(file(tmp_path, "box.json", b""))
    os.link(tmp_path / "box.json", tmp_path / "BOX.JSON")
    assert folds_case(str(tmp_path / "box.json"))
