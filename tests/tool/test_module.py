"""The module naplps answers what the program answers, over the library and over the program."""
import array
import os
import pathlib
import pickle
import re
import subprocess
import sys

import pytest
from hypothesis import given, settings
from hypothesis import strategies as st

import naplps as nap
from command import PACKAGES, TOP
from libraries import library_path
from lines import line_of
from naplps.answers import Accepted
from naplps.backends import FIRST
from samples import MACRO, OUTSIDE, POINT, POINT_AND_BELL, POINT_LINE, SPELLED
from strategies import pages

from dev.vectors.crate_rows import rows_of
from dev.vectors.notation import bytes_of, lines_of, numbers_of
from dev.vectors.rows import files, vectors_of

CANON = bytes.fromhex("0E215F265240404040404040")
MIB = 1 << 20
# Each has a list that is longer than the first buffer; the second is refused after it.
LONG = POINT * 2000
LONG_REFUSED = LONG + OUTSIDE


def refusal(call, *words):
    """Why a call refuses, as a line; None where it doesn't."""
    try:
        call(*words)
        return None
    except nap.Refused as refused:
        return str(refused)


def test_known_answers(kind):
    assert nap.backend().kind == kind
    point = nap.Point((nap.ONE // 2, nap.ONE // 2), (0, 0), nap.Colour("own-start"))
    assert nap.check(POINT) == 1 and nap.check(POINT_AND_BELL) == 2
    assert nap.lines(POINT) == [POINT_LINE]
    assert nap.entries(POINT_AND_BELL) == [point, nap.Bell()]
    assert nap.canon(POINT) == nap.canon(SPELLED) == CANON
    assert nap.places(POINT_AND_BELL) == ([(5, point), (5, nap.Bell())], None)


def test_the_programs_of_the_document(kind, naplps):
    """The programs of docs/LIBRARY.md, and what they print."""
    told = {"NAPLPS": naplps, "NAPLPS_LIBRARY": library_path() if kind == "library" else "", "PYTHONPATH": PACKAGES}
    text = pathlib.Path(TOP, "docs", "LIBRARY.md").read_text("utf-8")
    programs = re.findall(r"^```python\n((?:(?!```).*\n)+)```\n\nprints\n\n((?:    .*\n)+)", text, re.MULTILINE)
    assert programs
    for lines, printed in programs:
        words = [sys.executable, "-B", "-c", lines]
        said = subprocess.run(words, env={**os.environ, **told}, capture_output=True, text=True)
        assert said.stdout + said.stderr == "".join(line[4:] for line in printed.splitlines(keepends=True))


def test_refused_pages(kind):
    for call in (nap.check, nap.lines, nap.entries, nap.canon):
        with pytest.raises(nap.Refused) as caught:
            call(OUTSIDE)
        refused = caught.value
        assert (refused.number, refused.name, refused.place) == (10, "Outside", 3)
        assert str(refused) == "refused 10 Outside at 3"
        again = pickle.loads(pickle.dumps(refused))
        assert (again.number, again.name, again.place) == (10, "Outside", 3)
    assert refusal(nap.check, b"A\x18") == "refused 6 LeftOut CAN at 1"
    told = nap.places(OUTSIDE)
    assert [place for place, _ in told.entries] == [3] and str(told.refused) == "refused 10 Outside at 3"


def test_empty_pages_and_nuls(kind):
    for page in (b"", b"\0", bytes(70000), bytearray(), memoryview(b""), memoryview(bytearray())):
        assert nap.check(page) == 0 and nap.entries(page) == [] and nap.canon(page) == b"\x0e\x21\x5f"
        assert nap.places(page) == ([], None)
    page = b"\0" + POINT + b"\0"
    assert nap.canon(page) == CANON and [place for place, _ in nap.places(page).entries] == [6]


def test_a_mebibyte(kind, program):
    page = b"\x0e" + b"&R@@" * (MIB // 4)
    assert nap.check(page) == MIB // 4 and len(nap.canon(page)) > FIRST
    assert nap.canon(page) == program.ask("canon", page).body


def test_a_page_that_is_no_request_of_batch(kind):
    page = b"\x07" + bytes(16 * MIB)
    assert nap.check(page) == 1 and nap.canon(page) == b"\x0e\x21\x5f\x07"
    assert refusal(nap.canon, page + b"\x80") == "refused 1 EighthBit at %d" % len(page)
    if kind == "program":
        with pytest.raises(nap.NeedsLibrary):
            nap.places(page)
    else:
        assert nap.places(page) == ([(0, nap.Bell())], None)


def test_a_text_that_is_longer_than_the_first_room(kind, program):
    for page in (LONG, LONG_REFUSED):
        told, wanted = nap.places(page), program.ask("places", page)
        assert len(wanted.body) > FIRST
        rows = "".join("%d %s\n" % (place, line_of(entry)) for place, entry in told.entries)
        assert rows.encode() == wanted.body
        assert (None if told.refused is None else str(told.refused)) == (
            None if isinstance(wanted, Accepted) else wanted.line)
    assert nap.lines(LONG) == [POINT_LINE] * 2000


def test_a_text_that_just_fits(kind):
    # A character is one byte of a canonical stream, which begins with four more.
    for length in (FIRST - 1, FIRST, FIRST + 1):
        page = b"A" * (length - 4)
        assert nap.canon(page) == b"\x0e\x21\x5f\x0f" + page


def test_budgets(kind):
    assert nap.check(MACRO, 4) == nap.check(MACRO, budget=nap.MOST_BUDGET) == nap.check(MACRO) == 1
    assert refusal(nap.canon, MACRO, 3) == refusal(nap.check, MACRO, 0) == "refused 17 Budget at 13"
    for call in (nap.check, nap.entries, nap.lines, nap.canon, nap.canon_form1, nap.places):
        for budget in (-1, nap.MOST_BUDGET + 1, 1 << 32, 1 << 70):
            with pytest.raises(ValueError, match="^a budget is from 0 to 67108864, not"):
                call(MACRO, budget)
        for budget in ("4", 4.0, None):
            with pytest.raises(TypeError):
                call(MACRO, budget)


def test_wrong_types(kind):
    for call in (nap.check, nap.entries, nap.lines, nap.canon, nap.canon_form1, nap.places, nap.is_plain):
        for page in ("0e26", None, 5, [14, 38], array.array("B", POINT)):
            with pytest.raises(TypeError, match="^a page is bytes, bytearray or memoryview, not "):
                call(page)


def test_other_buffers(kind):
    held = bytearray(POINT_AND_BELL)
    spread = bytes(byte for pair in zip(POINT, bytes(5)) for byte in pair)
    wide = memoryview(array.array("H", [int.from_bytes(POINT[at:at + 2], sys.byteorder) for at in (0, 2)]))
    for page, count in ((held, 2), (memoryview(held), 2), (memoryview(held)[:5], 1), (memoryview(POINT), 1),
                        (memoryview(spread)[::2], 1), (memoryview(bytearray(spread))[::2], 1), (wide, 1)):
        assert nap.check(page) == len(nap.entries(page)) == count
        assert nap.canon(page)[:12] == CANON
    with pytest.raises(nap.Refused):
        nap.check(bytearray(OUTSIDE))
    del page
    held += b"\x07"  # which a call that still held it would forbid
    assert nap.check(held) == 3


def counted(pieces, budget=nap.USUAL_BUDGET):
    """How many entries a page has that comes in these pieces."""
    checker = nap.Checker(budget)
    for piece in pieces:
        checker.feed(piece)
    return checker.finish()


def test_a_page_in_pieces(kind):
    for page in (b"", POINT_AND_BELL, MACRO, OUTSIDE, POINT + b"\x1b", bytearray(LONG), memoryview(LONG_REFUSED)):
        whole = refusal(nap.check, page)
        cuts = range(0, len(page) + 1, 1 + len(page) // 40)
        for pieces in [[page[:cut], page[cut:]] for cut in cuts] + [[page[at:at + 7] for at in range(0, len(page), 7)]]:
            assert refusal(counted, pieces) == whole
            assert whole is not None or counted(pieces) == nap.check(page)
    assert refusal(counted, [MACRO[:5], MACRO[5:]], 3) == "refused 17 Budget at 13" and counted([MACRO], 4) == 1


def test_a_refusal_of_a_piece_stays(kind):
    checker, other = nap.Checker(), nap.Checker()
    other.feed(POINT)
    assert refusal(checker.feed, OUTSIDE) is None  # whose run is still open
    told = [refusal(checker.feed, piece) for piece in (b"\x07", b"", POINT)]
    assert told == ["refused 10 Outside at 3" if kind == "library" else None] * 3
    assert refusal(checker.finish) == "refused 10 Outside at 3" and other.finish() == 1
    for call, words in ((checker.feed, (POINT,)), (checker.finish, ()), (other.finish, ())):
        with pytest.raises(ValueError, match="^the page has ended$"):
            call(*words)
    for wrong in ("0e26", None):
        with pytest.raises(TypeError, match="^a page is bytes"):
            nap.Checker().feed(wrong)
    with pytest.raises(ValueError, match="^a budget is from 0"):
        nap.Checker(budget=-1)


def test_checkers_that_are_dropped(kind):
    for _ in range(2000):
        nap.Checker().feed(MACRO)
    assert counted([MACRO]) == 1


def test_vectors(kind):
    tried = 0
    for vector in (vector for file in files() for vector in vectors_of(file)):
        page, budget, told = vector.data, vector.budget, lines_of(vector.list)
        placed = nap.places(page, budget)
        assert [line_of(entry) for _, entry in placed.entries] == told, vector.place
        if "places" in vector.more:
            assert [place for place, _ in placed.entries] == numbers_of(vector.more["places"]), vector.place
        if vector.accepted:
            assert nap.check(page, budget) == len(told) and nap.lines(page, budget) == told, vector.place
            assert nap.canon(page, budget) == bytes_of(vector.ending) and placed.refused is None, vector.place
        else:
            assert refusal(nap.check, page, budget) == refusal(nap.canon, page, budget) == vector.ending, vector.place
            assert refusal(nap.entries, page, budget) == str(placed.refused) == vector.ending, vector.place
        tried += 1
    assert tried > 3000


def test_vectors_and_rows_by_what_the_library_alone_has(kind):
    if kind == "program":
        for call in (nap.is_plain, nap.canon_form1):
            with pytest.raises(nap.NeedsLibrary, match="it takes the library libnaplps.so.0$"):
                call(POINT)
        return
    for vector in (vector for file in files() for vector in vectors_of(file)):
        assert nap.is_plain(vector.data) == ("plain" in vector.more), vector.place
        if vector.accepted:
            wanted = bytes_of(vector.more.get("form1", vector.ending))
            assert nap.canon_form1(vector.data, vector.budget) == wanted, vector.place
        else:
            assert refusal(nap.canon_form1, vector.data, vector.budget) == vector.ending, vector.place
    rows = rows_of(pathlib.Path(TOP, "crates", "nap_rows", "data"))
    for row in rows:
        assert row.plain in (None, nap.is_plain(row.stream)), row.place
        assert row.form1 is None or nap.canon_form1(row.stream, row.budget) == row.form1, row.place
    assert sum(row.form1 is not None for row in rows) > 40


@st.composite
def damaged(draw):
    """A page, with some bytes of it replaced, put in or cut off."""
    page = bytearray(draw(pages()))
    for at in draw(st.lists(st.integers(0, len(page)), max_size=3)):
        page[at:at + draw(st.integers(0, 2))] = draw(st.binary(max_size=2))
    return bytes(page)


@settings(max_examples=200)
@given(st.one_of(pages(), damaged(), st.binary(max_size=80)), st.sampled_from((0, 7, nap.USUAL_BUDGET)))
def test_pages_by_chance(kind, program, page, budget):
    program.budget = budget
    check, listed, canon, placed = (program.ask(call, page) for call in ("check", "list", "canon", "places"))
    told = nap.places(page, budget)
    rows = "".join("%d %s\n" % (place, line_of(entry)) for place, entry in told.entries)
    assert rows.encode() == placed.body
    if isinstance(check, Accepted):
        assert nap.check(page, budget) == check.entries and nap.canon(page, budget) == canon.body
        assert [line_of(entry) for entry in nap.entries(page, budget)] == listed.body.decode().splitlines()
    else:
        for call in (nap.check, nap.entries, nap.canon):
            assert refusal(call, page, budget) == str(told.refused) == check.line


def test_a_fork_asks_by_itself(kind):
    nap.check(POINT)
    reads, writes = os.pipe()
    child = os.fork()
    if not child:
        os.write(writes, nap.canon(SPELLED))
        os._exit(0)
    assert nap.check(POINT_AND_BELL) == 2
    os.close(writes)
    with open(reads, "rb") as pipe:
        assert pipe.read() == CANON
    os.waitpid(child, 0)
    assert nap.check(POINT) == 1


def test_a_process_of_its_own(kind, naplps):
    lines = ("import naplps, subprocess, sys; page = sys.stdin.buffer.read(); kind = naplps.backend().kind\n"
             "print(kind, naplps.check(page), naplps.canon(page).hex(), flush=True)\n"
             "idle = [] if kind == 'library' else naplps.backends.found()._idle\n"
             "print(*[client.process.process.pid for client in idle])")
    told = {"NAPLPS": naplps, "NAPLPS_LIBRARY": library_path() if kind == "library" else "", "PYTHONPATH": PACKAGES}
    said = subprocess.run([sys.executable, "-B", "-W", "error", "-c", lines], input=POINT, env={**os.environ, **told},
                          capture_output=True, cwd="/")
    answer, pids = said.stdout.decode().split("\n")[:2]
    assert answer == "%s 1 %s" % (kind, CANON.hex()) and said.stderr == b""
    assert bool(pids) == (kind == "program") and not any(os.path.exists("/proc/" + pid) for pid in pids.split())
