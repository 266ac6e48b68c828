"""Packs made and damaged by chance, and scans of them: each has its rows and is known again, and so is each member.

It takes seconds. FUZZ_SECONDS=600 lets it run for so long, and FUZZ_COUNTS names a file for how often what came of it.
"""
import collections
import os
import shutil

from folders import states
from forked import counted, forked, require_told, rounds
from packers import written
from random_packs import random_pack
from scans import rows

# (a busy machine may take long, and no test asserts a time)
PATIENT = ["--timeout", "600"]
ROUNDS, PACKS, MEMBERS = 6, 24, 6


FOUND = """SELECT substr(d.path, 1, length(d.path) - 2), f.name, f.state, p.state FROM files f
    JOIN folders d ON d.id = f.folder LEFT JOIN pages p ON p.id = f.page
    WHERE substr(d.path, -2) = x'212F' ORDER BY 1, 2"""


def test_random_packs(tmp_path, naplps):
    folder, counts = str(tmp_path), collections.Counter()
    packs, store = os.path.join(folder, "packs"), os.path.join(folder, "pages.db")
    for seed, chance in rounds(ROUNDS):
        shutil.rmtree(packs, ignore_errors=True)
        os.mkdir(packs)
        for each in (store, store + "-wal"):
            if os.path.exists(each):
                os.unlink(each)
        for number in range(PACKS):
            ending, data = random_pack(chance)
            written(os.path.join(packs, "%02d.%s" % (number, ending)), data)
        before = untouched(folder)
        first = scanned(folder, naplps, seed, counts)
        again = scanned(folder, naplps, seed, counts)
        # (of several members of one name the first scan tells what was wrong with each as well, and of many broken ones
        # it names the first in the pack, and not those of the first names)
        lines = [line for line in again.err.splitlines() if b" of its members couldn't be read" in line]
        assert set(lines) <= set(first.err.splitlines()) and first.status == again.status, seed
        assert lines or set(again.err.splitlines()) <= set(first.err.splitlines()), seed
        assert b" known, 0 pages asked about" in again.out, (seed, again)
        found = rows(store, FOUND)
        assert sum(1 for _, name, _, _ in found if not name) == PACKS, seed
        read_again(chance, folder, naplps, seed, found, counts)
        said = forked(["equal", "pages.db", "--verify", *PATIENT], folder, naplps)
        require_told(said, "equal", seed)
        assert said.status == 0, (seed, said)
        counts["equal", said.status] += 1
        assert untouched(folder) == before, seed
    counted(counts, "random packs, %d a scan" % PACKS)


def untouched(folder):
    """What stands in the folder, with hashes, but for the store."""
    return {name: what for name, what in states(folder).items() if not name.startswith("pages.db")}


def scanned(folder, naplps, seed, counts):
    """What a scan says."""
    said = forked(["scan", "packs", "-o", "pages.db", "--jobs", "1", *PATIENT], folder, naplps)
    require_told(said, "scan", seed)
    assert said.status in (0, 3) and said.out.startswith(b""), (seed, said)
    counts["scan", said.status] += 1
    return said


def read_again(chance, folder, naplps, seed, found, counts):
    """Asks about members by their names: the answer is that of the scan."""
    for path, name, state, answer in chance.sample(found, min(MEMBERS, len(found))):
        word = os.fsdecode(path + b"!" + name)
        said = forked(["check", word, *PATIENT], folder, naplps)
        require_told(said, word, seed)
        assert said.status == (answer if state == 0 and name else 3), (seed, word, said)
        counts["check", said.status] += 1
