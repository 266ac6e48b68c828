"""What programs read of naplps-pages stays: the columns of CSV, the members of JSON with their types, and fixed lines.

Each line of tests/lib/forms.jsonl has a command over a small box, its status, and what stands of what it prints.
Members and columns may only be added.
"""
import csv
import io
import json
import os
import subprocess
from pathlib import Path

import pytest

from command import COMMAND, LIB
from samples import POINT, SPELLED, with_parity
from scans import tree

# The files of the box: pages, a page spelled otherwise, what is refused, and what is no page.
FILES = {
    "page.nap": POINT, "copy.nap": POINT, "spelled.nap": SPELLED, "words.nap": b"Harbour lights",
    "refused.nap": POINT + b"\x0e\x24", "tail.nap": POINT + b"\x1a", "parity.nap": with_parity(b"Harbour master"),
    "cut.nap": POINT[:3], "left-out.nap": b"\x18" + POINT, "note.txt": b"A note of the year.\r\nAnd a second line.\r\n",
    "blank.nap": b" ", "empty.nap": b"", "picture.gif": b"GIF89a" + bytes(40),
    "many.nap": b"\x1b\x22\x46".join([POINT] * 3)}
FORMS = {form["command"]: form for form in map(json.loads, Path(LIB, "forms.jsonl").read_text("utf-8").splitlines())}
TYPES = {bool: "boolean", int: "number", float: "number", str: "string", list: "array", dict: "object"}


@pytest.fixture(scope="module")
def box(tmp_path_factory, naplps):
    """The folder of the box, with its store; and the environment of the commands."""
    folder, environment = tmp_path_factory.mktemp("forms"), dict(os.environ, NAPLPS=naplps, LC_ALL="C.UTF-8")
    for place in (folder, folder / "box"):
        tree(place, FILES)
    subprocess.run([COMMAND, "scan", "-o", "x.db", "box"], cwd=folder, env=environment, capture_output=True, check=True)
    return folder, environment


@pytest.fixture
def printed(box, command):
    """What a command prints, which has its status."""
    folder, environment = box
    ran = subprocess.run([COMMAND, *command.split()], cwd=folder, env=environment, capture_output=True,
                         stdin=subprocess.DEVNULL)
    assert ran.returncode == FORMS[command]["status"], ran
    return ran.stdout.decode("utf-8", "replace")


def members_of(value, path=""):
    """Each member of a value of JSON by its path, with its type; the items of an array have one path."""
    yield path, TYPES.get(type(value), "null")
    for name, member in value.items() if isinstance(value, dict) else ():
        yield from members_of(member, f"{path}.{name}")
    for item in value if isinstance(value, list) else ():
        yield from members_of(item, f"{path}[]")


@pytest.mark.parametrize("command", [command for command in FORMS if "lines" in FORMS[command]])
def test_lines_stay(printed, command):
    assert printed.splitlines() == FORMS[command]["lines"]


@pytest.mark.parametrize("command", [command for command in FORMS if "columns" in FORMS[command]])
def test_columns_stay(printed, command):
    columns = FORMS[command]["columns"]
    assert next(csv.reader(io.StringIO(printed)))[:len(columns)] == columns


@pytest.mark.parametrize("command", [command for command in FORMS if "members" in FORMS[command]])
def test_members_stay_and_keep_their_types(printed, command):
    found = {}
    for value in map(json.loads, printed.splitlines()):
        for path, kind in members_of(value):
            found.setdefault(path, set()).add(kind)
    for path, types in FORMS[command]["members"].items():
        others = found[path] - {*types, "null"}
        assert not others or types == ["null"], (path, types, found[path])
