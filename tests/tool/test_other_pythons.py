"""Scans under other versions of Python: the rows are the same."""
import glob
import os
import random
import subprocess
import sys

import pytest

from command import COMMAND
from extremes import gzips, paxes, tars, zips
from packers import member, written
from random_packs import random_pack
from samples import OUTSIDE, POINT, SPELLED
from scans import every_table, tree

PLACES = ("/usr/bin/python3.*", "/usr/local/bin/python3.*", os.path.expanduser("~/.pyenv/versions/*/bin/python3"))
NUMBERS, PACKS = (1, 1 << 63, (1 << 88) - 1), 300
VERSION = "import sys; print('%d.%d.%d' % sys.version_info[:3], sys.version_info >= (3, 9))"


def others():
    """A Python of each other version from 3.9 on that is here."""
    found = {}
    for path in sorted({path for place in PLACES for path in glob.glob(place)}):
        said = subprocess.run([path, "-c", VERSION], capture_output=True, text=True)
        version, _, fits = said.stdout.strip().partition(" ")
        if fits == "True":
            found.setdefault(version, path)
    found.pop("%d.%d.%d" % sys.version_info[:3], None)
    return found


@pytest.fixture(scope="module")
def packs(tmp_path_factory):
    """A folder of pages and of packs, of which most are hostile or damaged."""
    top = str(tmp_path_factory.mktemp("packs"))
    some = [(ending, data) for number in NUMBERS for ending, made in (
        ("tar", tars(number)), ("tar", paxes(b"%d" % number)), ("zip", zips(number)), ("tgz", gzips(number)))
            for _, data in made]
    chance = random.Random(os.environ.get("FUZZ_SEED", "1"))
    some += [random_pack(chance) for _ in range(PACKS)]
    for number, (ending, data) in enumerate(some):
        written(os.path.join(top, "%04d.%s" % (number, ending)), data)
    written(os.path.join(top, "long.tar"), member("a", POINT) + b"\xff" * 512 + member("b", SPELLED) + bytes(1024))
    return tree(top, {"page.nap": POINT, "sub/bad": OUTSIDE})


def scanned(python, naplps, top, store):
    """What a scan under this Python says, and the tables of its store."""
    said = subprocess.run([python, "-ES", COMMAND, "scan", top, "-o", store], capture_output=True,
                          env=dict(os.environ, NAPLPS=naplps))
    assert said.returncode == 3 and b"Traceback" not in said.stderr, said
    return sorted(said.stderr.splitlines()), every_table(store)


@pytest.fixture(scope="module")
def own(naplps, packs, tmp_path_factory):
    """What a scan under the Python of the tests says, and the tables of its store."""
    said = scanned(sys.executable, naplps, packs, str(tmp_path_factory.mktemp("own") / "own.db"))
    assert len(said[1]["files"]) > PACKS
    return said


@pytest.mark.parametrize("version", sorted(others()) or [None])
def test_a_store_is_the_same_under_each_python(naplps, packs, own, tmp_path, version):
    if version is None:
        pytest.skip("there is no other Python from 3.9 on")
    told, table = scanned(others()[version], naplps, packs, str(tmp_path / "other.db"))
    assert told == own[0]
    for name, rows in table.items():
        assert rows == own[1][name], name
