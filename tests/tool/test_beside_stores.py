"""What stands beside a store, by one of five endings, and isn't its own: each command says so, and changes nothing."""
import os
import struct
import sys
from contextlib import nullcontext
from pathlib import Path

import pytest

from command import file
from folders import OBSTACLES, remove, states
from forked import forked, require_told
from naplps_pages.collection.store_files import (
    ENDINGS, INDEX, JOURNAL, LOCK, LOG, MADE, Busy, Lock, is_held, require_own,
)
from naplps_pages.collection.store import open_to_write
from stores import Stores

NOT_OWN = "naplps-pages: %s: what stands beside it, as %s, is no file of its own\n"
COMMANDS = (["files"], ["equal"], ["equal", "OTHER"], ["files", "--refused"], ["files", "--census"],
            ["files", "--json"], ["find"], ["fix", "-o", "canonical"], ["show", "-o", "canonical"],
            ["canon", "-o", "canonical"], ["report", "-o", "report.html"], ["report", "--serve"], ["scan"],
            ["scan", "--merge"])
FEW, EACH = (["files"], ["scan"], ["scan", "--merge"]), ("a hard link", "a fifo")


@pytest.fixture(scope="module")
def made(tmp_path_factory, naplps):
    stores = Stores(str(tmp_path_factory.mktemp("beside")), naplps, keeps="words repair")
    file(stores.folder, "victim", b"precious" * 1000)
    return stores


@pytest.mark.parametrize("kind", OBSTACLES)
@pytest.mark.parametrize("ending", ENDINGS)
def test_what_is_not_the_stores_own_is_left_alone(made, ending, kind):
    """By each command for two kinds, and by those that write, wait or only read for all."""
    path = made.change() + ending
    try:
        OBSTACLES[kind](path, os.path.join(made.folder, "victim"))
        before = states(made.folder)
        for command in COMMANDS if kind in EACH or "FUZZ_SECONDS" in os.environ else FEW:
            said = made.run(command, 120)
            require_told(said, command)
            assert said.status == 3 and said.err.decode().endswith(NOT_OWN % ("bad.db", ending)), (command, said)
            assert states(made.folder) == before, command
    finally:
        remove(path)


@pytest.mark.parametrize("kind", OBSTACLES)
@pytest.mark.parametrize("ending", ENDINGS)
def test_what_stands_there_before_a_store_is_made(made, naplps, ending, kind):
    folder, path = made.folder, os.path.join(made.folder, "new.db" + ending)
    try:
        OBSTACLES[kind](path, os.path.join(folder, "victim"))
        before = states(folder)
        for command in (["scan", made.pages, "-o", "new.db"], ["scan", "--merge", "-o", "new.db", "good.db"]):
            said = forked(command, folder, naplps, 120)
            assert said.status == 3 and said.err.decode() == NOT_OWN % ("new.db", ending), (command, said)
            assert states(folder) == before, command
    finally:
        remove(path)


def test_no_other_store_is_put_beside_what_a_store_left(made, naplps):
    for ending, data in ((JOURNAL, bytes(28)), (LOG, b""), (INDEX, b"\0\0\0")):
        path = file(made.folder, "new.db" + ending, data)
        said = forked(["scan", "--merge", "-o", "new.db", "good.db"], made.folder, naplps)
        os.unlink(path)
        assert said == (3, b"", b"naplps-pages: new.db: isn't made: what is left of another store stands there, as %s\n"
                        % ending.encode())


OWN = {LOCK: (b"", b"31806\n", b"1"), MADE: (b"", "a store"),
       JOURNAL: (b"", bytes(512), bytes.fromhex("D9D505F920A163D7") + bytes(20)),
       LOG: (b"", bytes.fromhex("377F0682002DE218") + bytes(24), bytes.fromhex("377F0683002DE218") + bytes(24)),
       INDEX: (b"", bytes(3), bytes(32768), (3007000).to_bytes(4, sys.byteorder) + bytes(132))}
OTHERS = {LOCK: (b"123 pages\n", b"x", b"\n1", b"1" * 21, b"1\n" * 99),
          MADE: (b"notes", b"SQLite format 3\0" + bytes(84)),
          JOURNAL: (b"x", bytes(7), b"notes" + bytes(99), bytes.fromhex("D9D505F920A163D7") * 2),
          LOG: (b"x", bytes(32), bytes.fromhex("377F0682")), INDEX: (b"x", b"notes of mine", struct.pack("=L", 1))}


@pytest.mark.parametrize("ending", ENDINGS)
def test_what_is_written_there_is_known(store, ending):
    open_to_write(store).close()
    for is_own, some in ((True, OWN[ending]), (False, OTHERS[ending])):
        for data in some:
            if data == "a store":
                data = Path(store).read_bytes()
            Path(store + ending).write_bytes(data)
            with nullcontext() if is_own else pytest.raises(OSError, match=ending):
                require_own(store, ending)


def test_a_lock_is_taken_away_by_who_has_it_alone(store):
    with Lock(store):
        assert is_held(store)
        with pytest.raises(Busy, match="process %d" % os.getpid()):
            Lock(store).__enter__()
        os.rename(store + LOCK, store + ".other")
        Path(store + LOCK).write_bytes(b"notes of mine")
    assert not is_held(store) and os.path.exists(store + LOCK) and os.path.exists(store + ".other")


def test_a_store_that_was_just_put_in_its_place_can_be_read(made):
    """A merge that is killed then leaves its store with two names."""
    os.link(made.change(), made.bad + ".new")
    assert made.run(["files"]).status == 0
    os.unlink(made.bad + ".new")
