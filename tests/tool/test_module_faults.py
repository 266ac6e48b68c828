"""What the module naplps asks, and what it says where that fails, isn't there or is something else."""
import os

import pytest

import naplps as nap
from command import file
from fake_programs import BATCH
from libraries import library_path, made_up
from naplps import backends
from naplps.backends import SONAME, LibraryBackend, ProgramBackend
from samples import OUTSIDE, POINT

CALLS = (nap.check, nap.lines, nap.entries, nap.canon, nap.places)


@pytest.fixture
def bare(monkeypatch, tmp_path, naplps):
    """A machine with the program, without a library in the usual places, and with nothing found yet."""
    monkeypatch.setattr(backends, "_found", None)
    monkeypatch.setattr(backends, "FOLDER", os.path.join(str(tmp_path), "lib", "naplps"))
    monkeypatch.setattr(backends, "SONAME", "libnaplps-of-no-machine.so.0")
    monkeypatch.setenv("NAPLPS", naplps)
    monkeypatch.delenv("NAPLPS_LIBRARY", raising=False)
    return monkeypatch


def why(call, *words):
    """The reason why nothing can be asked."""
    with pytest.raises(nap.Unavailable) as caught:
        call(*words)
    return caught.value


def test_the_library_comes_first(bare):
    path = library_path()
    for named in (path, os.path.dirname(path)):
        bare.setattr(backends, "_found", None)
        bare.setattr(backends, "SONAME", SONAME)
        bare.setenv("NAPLPS_LIBRARY", named)
        assert nap.backend() == ("library", path) and nap.check(POINT) == 1


def test_the_library_under_the_same_prefix(bare, tmp_path):
    os.makedirs(str(tmp_path / "lib"))
    with open(library_path(), "rb") as library:
        path = file(tmp_path / "lib", SONAME, library.read())
    bare.setattr(backends, "SONAME", SONAME)
    assert nap.backend() == ("library", path) and nap.check(POINT) == 1


def test_the_program_where_there_is_no_library(bare, tmp_path, naplps):
    assert nap.backend() == ("program", naplps) and nap.check(POINT) == 1
    bare.setattr(backends, "_found", None)
    bare.setattr(backends, "SONAME", SONAME)
    bare.setenv("NAPLPS_LIBRARY", "")
    assert nap.backend() == ("program", naplps)
    for name in ("bin", "lib/naplps"):
        os.makedirs(str(tmp_path / name))
    file(tmp_path / "bin", "naplps-pages", b"")
    os.symlink(naplps, str(tmp_path / "bin" / "naplps"))
    bare.delenv("NAPLPS")
    bare.setattr(backends, "_found", None)
    assert nap.backend() == ("program", str(tmp_path / "bin" / "naplps")) and nap.check(POINT) == 1


def test_neither_is_there_and_it_looks_again(bare, tmp_path, naplps):
    bare.setenv("NAPLPS", str(tmp_path / "nothing"))
    for call in CALLS:
        assert str(why(call, POINT)) == (
            "there is neither the library nor the program: libnaplps-of-no-machine.so.0 isn't there, and NAPLPS names "
            "no program: %s" % (tmp_path / "nothing"))
    bare.setenv("NAPLPS_LIBRARY", "")
    assert "NAPLPS_LIBRARY is empty, and NAPLPS names no program" in str(why(nap.is_plain, POINT))
    why(nap.backend)
    bare.setenv("NAPLPS", naplps)
    assert nap.check(POINT) == 1


def test_a_named_library_that_isnt_there_is_not_passed_over(bare, tmp_path):
    for named in (str(tmp_path / "nothing"), str(tmp_path)):
        bare.setenv("NAPLPS_LIBRARY", named)
        assert str(why(nap.check, POINT)) == (
            "NAPLPS_LIBRARY names no library, nor a folder with libnaplps-of-no-machine.so.0: %s" % named)


def test_a_library_that_cant_be_loaded(bare, tmp_path):
    path = file(tmp_path, "broken.so", b"\x7fELF and no more")
    bare.setenv("NAPLPS_LIBRARY", path)
    error = why(nap.check, POINT)
    assert isinstance(error, nap.WrongLibrary) and str(error).startswith("the library can't be loaded: %s" % path)


@pytest.mark.parametrize("name", ["check", "list", "canon_form1", "places"])
def test_a_library_of_another_version(bare, tmp_path, name):
    path = made_up(str(tmp_path), "0", without=name)
    bare.setenv("NAPLPS_LIBRARY", path)
    error = why(nap.backend)
    assert isinstance(error, nap.WrongLibrary)
    assert str(error) == "%s isn't the library of this version: %s: undefined symbol: naplps_%s" % (path, path, name)


@pytest.mark.parametrize("answer, error, reason", [
    ("7, 0, 0, 0", nap.WrongLibrary, "its answer has the status 7"),
    ("3, 0, 0, 0", nap.WrongLibrary, "its answer has the status 3"),
    ("0, 0, 0, 1ull << 40", nap.WrongLibrary, "its answer is longer than its room"),
    ("2, 0, 0, 1ull << 62", nap.NoMemory, "^there is no memory for an answer of 4611686018427387904 bytes")])
def test_a_library_that_answers_nonsense(tmp_path, answer, error, reason):
    library = LibraryBackend(made_up(str(tmp_path), answer))
    with pytest.raises(error, match=reason + "$"):
        library.answer("canon", POINT, 0)


@pytest.mark.parametrize("by, answer", [
    ("program", "no memory"), ("program", "refused 21 Memory at 0"), ("library", "refused 21 Memory at 3")])
def test_want_of_memory(bare, fake, tmp_path, by, answer):
    if by == "library":
        bare.setenv("NAPLPS_LIBRARY", made_up(str(tmp_path), '1, 21, 3, 0, "Memory"'))
    else:
        bare.setenv("NAPLPS", fake(BATCH + "for each in requests(): answer(b'%s')" % answer))
    for call in CALLS:
        with pytest.raises(MemoryError, match=f"^the {by} had no memory for it") as caught:
            call(POINT)
        assert isinstance(caught.value, nap.NoMemory) and not isinstance(caught.value, nap.Refused)
        assert by == "program" or str(caught.value) == f"the library had no memory for it ({answer})"


@pytest.mark.parametrize("lines, reason", [
    ("sys.exit(3)", "the program ended with status 3"),
    (BATCH + "for each in requests(): answer(b'hello')", "the program answered something that is no answer")])
def test_a_program_that_fails(bare, fake, lines, reason):
    bare.setenv("NAPLPS", fake(lines))
    for call in CALLS:
        with pytest.raises(nap.NoAnswer, match="^%s$" % reason):
            call(POINT)


def test_entries_that_are_none(bare, fake):
    bare.setenv("NAPLPS", fake(BATCH + "for each in requests(): answer(b'accepted 1 entries', b'5 HELLO 1,2\\n')"))
    for call in (nap.entries, nap.places):
        with pytest.raises(nap.NoAnswer, match="told of an entry that isn't one: (5 )?HELLO 1,2$"):
            call(POINT)


def test_the_page_behind_a_failure_has_its_answer(bare, fake):
    bare.setenv("NAPLPS", fake(BATCH + "for command, budget, page in requests():\n    if page == b'bad': sys.exit(1)\n"
                                       "    answer(b'accepted 7 entries')"))
    assert nap.check(b"good") == 7
    with pytest.raises(nap.NoAnswer):
        nap.check(b"bad")
    assert nap.check(b"good") == 7


def test_a_process_answers_page_after_page(naplps):
    program = ProgramBackend(naplps)
    for _ in range(20):
        assert program.answer("check", POINT, 0).entries == 1
        assert program.answer("check", OUTSIDE, 0).refused.number == 10
    assert len(program._idle) == 1 and program._idle[0].started == 1
    program.close()
