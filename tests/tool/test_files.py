"""The command files: which files it tells, in each of its forms, and that nothing of a name is raw on a terminal."""
import csv
import hashlib
import io
import json
import os

import pytest

from naplps_pages.collection.every_file import COLUMNS
from packers import pack
from samples import OUTSIDE, POINT, SPELLED, with_parity
from scans import tree

GIF = b"GIF89a\x81" * 9
# Names that would act where a terminal took them for themselves, each as it is shown.
HOSTILE = {b"\x1b[31mred\x1b[0m": "\\x1b[31mred\\x1b[0m", b"a\rb": "a\\rb", b"line\nend": "line\\nend",
           b"\x9b2J": "\\x9b2J", "\u202egnp.nap".encode(): "\\u202egnp.nap", b"back\\slash": "back\\\\slash",
           b"\x07bell": "\\x07bell", "\u00e9\u200b".encode(): "\u00e9\\u200b", b"=cmd()": "=cmd()"}
FILES = {"page": POINT, "sub/copy": POINT, "sub/spelled": SPELLED, "text": b"\x0fhello", "blank": b"",
         "outside": OUTSIDE, "cut": b"\x1b", "can": b"\x0fA\x18B", "sequence": b"\x0fA\x1b\x22\x46B",
         "parity": with_parity(POINT), "gif": GIF, **{b"hostile/" + name: OUTSIDE for name in HOSTILE}}


@pytest.fixture(scope="module")
def at(naplps, tmp_path_factory):
    """Where the folder and its store are."""
    at = str(tmp_path_factory.mktemp("files"))
    tree(os.path.join(at, "pages"), FILES)
    pack(os.path.join(at, "pages", "p.tar"), {"inner": POINT, "in/out": OUTSIDE})
    os.symlink("page", os.path.join(at, "pages", "link"))
    return at


@pytest.fixture
def told(run, at):
    """What the command says with these words, in the folder, on the store."""
    if not os.path.exists(os.path.join(at, "pages.db")):
        assert run(["scan", "pages", "-o", "pages.db"], keeps="repair", cwd=at).returncode == 0

    def tells(*words, status=0):
        said = run(["files", "pages.db", *words], cwd=at)
        assert (said.returncode, said.stderr) == (status, b"") or status
        return said
    return tells


def names(told, *words):
    """The names that are told, below the folder, in their order."""
    top = os.fsencode(os.path.join(told.__closure__[0].cell_contents, "pages")) + b"/"
    found = told("-0", *words).stdout
    assert found == b"" or found.endswith(b"\0")
    return [each[len(top):] for each in found.split(b"\0")[:-1]]


ALL = sorted([*map(os.fsencode, FILES), b"p.tar!in/out", b"p.tar!inner", b"link"])
REFUSED = {b"outside", b"cut", b"can", b"sequence", b"parity", b"gif", b"p.tar!in/out",
           *(b"hostile/" + name for name in HOSTILE)}


def test_each_file_has_its_name_as_it_is(told):
    assert sorted(names(told)) == ALL


@pytest.mark.parametrize("words, wanted", [
    (["--kind", "page"], {b"page", b"sub/copy", b"sub/spelled", b"p.tar!inner"}), (["--kind", "text"], {b"text"}),
    (["--kind", "blank"], {b"blank"}), (["--kind", "GIF"], {b"gif"}), (["--kind", "gif"], set()),
    (["--kind", "nothing"], set()), (["--kind", "\x1b[31m' OR 1=1 --"], set()),
    (["--refused"], REFUSED), (["--reason", "19"], {b"cut"}), (["--reason", "cut"], {b"cut"}),
    (["--reason", "EighthBit"], {b"parity", b"gif"}), (["--reason", "CAN"], {b"can"}),
    (["--reason", "0x18"], {b"can"}), (["--reason", "1B 22"], {b"sequence"}),
    (["--reason", "1b2246"], {b"sequence"}),
    (["--reason", "1B2247"], set()), (["--reason", "SDC"], set()),
    (["--refused", "--kind", "GIF"], {b"gif"}), (["--reason", "10", "--kind", "page"], set())])
def test_some_of_the_files(told, words, wanted):
    assert set(names(told, *words)) == wanted


@pytest.mark.parametrize("reason", ["\x1b[31m", "10\x1b[0m", "\x9b2J", "line\nend", "\u202e01", "x' OR 1=1 --", "",
                                    "0", "99", "\udcff", "1B" + "22" * 5000, "1B00"])
def test_a_word_that_is_no_reason_is_told_without_harm(told, reason):
    said = told("--reason", reason, status=2)
    assert said.returncode == 2 and said.stdout == b"" and is_plain(said.stderr)


def is_plain(text):
    """Whether nothing in a text acts on a terminal."""
    return text.decode("utf-8").replace("\n", "").isprintable()


def test_nothing_of_a_name_is_raw(told):
    for words in ([], ["--kind", "any"], ["--refused"], ["--csv"], ["--json"]):
        assert is_plain(told(*words).stdout), words
    lines = told("--reason", "Outside", "--kind", "any").stdout.decode().splitlines()
    assert sorted(line.partition("/pages/hostile/")[2] for line in lines if "/hostile/" in line) == sorted(
        shown + ": refused 10 Outside at 3" for shown in HOSTILE.values())


def path_of(row):
    """The path that a row of JSON or CSV names."""
    return bytes.fromhex(row["name_hex"]) if row.get("name_hex") else row["name"].encode()


def test_json_and_csv_tell_the_same(told):
    objects = {path_of(each): each for each in map(json.loads, told("--json").stdout.splitlines())}
    assert sorted(path.split(b"/pages/", 1)[1] for path in objects) == ALL
    table = list(csv.DictReader(io.StringIO(told("--csv").stdout.decode(), newline="")))
    assert list(table[0]) == list(COLUMNS)
    assert {path_of(row) for row in table} == set(objects) and len(table) == len(ALL)
    for row in table:
        for column in COLUMNS[2:]:
            value = objects[path_of(row)][column]
            assert row[column] == ("" if value is None else str(value)), (row["name"], column)


def test_facts(told):
    facts = {each["name"].split("/pages/", 1)[1]: each for each in map(json.loads, told("--json").stdout.splitlines())}
    page, out = facts["page"], facts["outside"]
    canon = hashlib.sha256(bytes.fromhex("0E215F265240404040404040")).hexdigest()
    assert {**page, **{
        "status": "accepted", "entries": 1, "size": 5, "hash": hashlib.sha256(POINT).hexdigest(), "canonical": canon,
        "kind": "page", "number": None, "tried": None}} == page
    assert {**out, **{
        "status": "refused", "number": 10, "fault": "Outside", "place": 3, "entries": None, "kind": None, "tried": True,
        "treatments": None}} == out
    assert facts["sub/spelled"]["canonical"] == canon and facts["parity"]["treated_canonical"] == canon
    assert (facts["parity"]["treatments"], facts["parity"]["grade"]) == ("parity", "around")
    assert (facts["link"]["status"], facts["link"]["reason"]) == ("not a file", "a symbolic link")
    assert facts["gif"]["looks_like"] == "GIF" and facts["p.tar!in/out"]["place"] == 3
