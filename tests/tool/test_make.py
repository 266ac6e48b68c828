"""Pages of lines: entries that print themselves, and what naplps.make answers."""
from random import Random

import pytest
from hypothesis import given
from hypothesis import strategies as st

import entries
import naplps as nap
from fake_programs import BATCH
from libraries import HEAD, made_up
from lines import line_of
from naplps.answers import NONSENSE, Accepted, Unanswered, WrongLine
from naplps.backends import LibraryBackend
from naplps.client import Client
from naplps.entry import read_line
from naplps.kinds import KINDS
from naplps.limits import MOST_PAGE
from samples import POINT, POINT_LINE
from strategies import pages

from dev.vectors.notation import bytes_of, lines_of
from dev.vectors.rows import files, vectors_of

SOME_KIND = st.sampled_from(list(entries.MAKERS))
CHANCE = st.randoms(use_true_random=False)
ENTRIES = st.builds(entries.entry, CHANCE, SOME_KIND)
NAMES = {words.split()[0] for words in KINDS}


def test_entries_of_all_kinds_are_made_by_chance():
    chance = Random(1)
    made = [entries.entry(chance) for _ in range(3000)]
    assert {str(each).split()[0] for each in made} == NAMES and len(entries.MAKERS) == 21
    assert {type(each) for each in made} == set(entries.MAKERS)


@given(ENTRIES)
def test_an_entry_prints_itself_and_is_read_again(entry):
    assert str(entry) == line_of(entry)
    assert read_line(str(entry)) == entry


@given(ENTRIES)
def test_each_line_is_known(kind, entry):
    try:
        assert nap.entries(nap.make([entry])) == [entry]
    except nap.NotMade as wrong:
        assert (wrong.line, wrong.column) == (1, None) and wrong.reason != "no line of a list"


@given(CHANCE, st.integers(0, 30))
def test_lists_come_back(kind, chance, length):
    made = entries.legal_list(chance, length)
    page = nap.make(made)
    assert nap.entries(page) == made and nap.canon(page) == page
    assert nap.make([str(entry) for entry in made]) == page


@given(pages())
def test_a_page_of_its_own_lines_is_its_canonical_stream(kind, page):
    assert nap.make(nap.lines(page)) == nap.make(nap.entries(page)) == nap.canon(page)


def test_known_pages(kind):
    assert nap.make([POINT_LINE]) == nap.canon(POINT) == bytes.fromhex("0E215F265240404040404040")
    assert nap.make([]) == bytes.fromhex("0E215F") and nap.make(iter(["BELL"])) == bytes.fromhex("0E215F07")


@pytest.mark.parametrize("lines, line, column, reason", [
    (["BELL", "BELLS"], 2, 1, "no line of a list"), (["BELL", ""], 2, 1, "no line of a list"),
    (["WAIT 5\r"], 1, None, "no line of a list"), (["WAIT 64"], 1, None, "no line of a list"),
    (["POINT 0,0 pel=0,0 colour=réd"], 1, None, "no line of a list"), (["\ud800"], 1, 1, "no line of a list"),
    (["BELL", "END"], 2, None, "can't come here"), (["BELL", "CLEAR pen=after"], 2, None, "can't come here"),
    (["BELL", "GLYPH 41", "BELL"], 3, None, "the definition of line 2 isn't ended")])
def test_refusals(kind, lines, line, column, reason):
    with pytest.raises(nap.NotMade) as told:
        nap.make(lines)
    it = told.value
    assert (it.line, it.reason) == (line, reason) and isinstance(it, nap.Error)
    assert (it.column is None) == (reason != "no line of a list") and column in (None, it.column)
    behind = f", at column {it.column}" if it.column else ""
    assert str(it) == f"line {line}: {reason}{behind}"


def test_what_is_no_list_of_lines(kind):
    for text in ("BELL", b"BELL"):
        with pytest.raises(TypeError):
            nap.make(text)
    with pytest.raises(ValueError, match="line 2 has a line end"):
        nap.make(["BELL", "BELL\nBELL"])


def test_more_lines_than_a_request_may_have(kind):
    many = MOST_PAGE // 5 + 1
    assert len(nap.make(["BELL"] * many)) == many + 3
    with pytest.raises(nap.NotMade, match="line %d: can't come here" % (many + 1)):
        nap.make(["BELL"] * many + ["END"])
    assert isinstance(Client("/bin/false").make(b"BELL\n" * many), Unanswered)


def making(fake, answer):
    """What the client says of the lines of a bell and of a wait where the program answers so."""
    client = Client(fake(BATCH + f"for command, budget, page in requests():\n    {answer}\n"))
    try:
        return client.make(b"BELL\nWAIT 1\n")
    finally:
        client.close()


def test_answers_of_programs(fake):
    assert making(fake, "answer(b'accepted 2 entries', b'page')") == Accepted(2, b"page")
    wrong = making(fake, "answer(b'line 2: no line of a list, at column 5')")
    assert wrong == WrongLine(2, "no line of a list", 5) and wrong.line == "line 2: no line of a list, at column 5"
    assert making(fake, "answer(b\"line 1: can't come here\")") == WrongLine(1, "can't come here")
    unended = making(fake, "answer(b\"line 2: the definition of line 1 isn't ended\")")
    assert (unended.number, unended.opening, unended.column) == (2, 1, None)
    assert unended.line == "line 2: the definition of line 1 isn't ended"
    assert making(fake, "answer(b'no memory')").too_much


@pytest.mark.parametrize("answer", [
    "answer(b'accepted 1 entries', b'page')", "answer(b'accepted 2 entries')", "answer(b'refused 10 Outside at 3')",
    "answer(b'line 3: can\\'t come here')", "answer(b'line 0: can\\'t come here')", "answer(b'line 1: can\\'t')",
    "answer(b'line 1: can\\'t come here', b'page')", "answer(b'line 1: no line of a list')",
    "answer(b'line 2: the definition of line 3 isn\\'t ended')", "answer(b'')"])
def test_nonsense(fake, answer):
    assert making(fake, answer) == Unanswered(NONSENSE)


def test_lists_of_vectors_make_their_canonical_streams(kind):
    accepted = [vector for file in files() for vector in vectors_of(file) if vector.accepted]
    assert len(accepted) > 1000
    for vector in accepted:
        assert nap.make(lines_of(vector.list)) == bytes_of(vector.ending), vector.place


# A library whose naplps_make answers what stands in C.
MADE_UP = HEAD + """
#include <string.h>
struct made { uint32_t status, fault; uint64_t line, column, opening, length, count; };
struct made naplps_make(const uint8_t *lines, size_t length, uint8_t *room, size_t size) { %s }
"""


@pytest.mark.parametrize("answer, said", [
    ("memcpy(room, lines, 4); return (struct made){0, 0, 0, 0, 0, 4, 1};", b"BELL"),
    ("return (struct made){1, 1, 3, 17};", "line 3: no line of a list, at column 17"),
    ("return (struct made){1, 2, 4};", "line 4: can't come here"),
    ("return (struct made){1, 3, 9, 0, 5};", "line 9: the definition of line 5 isn't ended"),
    ("return (struct made){1, 4};", nap.NoMemory), ("return (struct made){1, 9};", nap.WrongLibrary),
    ("return (struct made){7};", nap.WrongLibrary), ("return (struct made){0, 0, 0, 0, 0, -1};", nap.WrongLibrary),
    ("if (size < 1000000) return (struct made){2, 0, 0, 0, 0, 1000000};"
     "memset(room, 7, size); return (struct made){0, 0, 0, 0, 0, 1000000};", b"\x07" * 1000000),
    ("return (struct made){2, 0, 0, 0, 0, 0x7fffffffffffffff};", nap.NoMemory)], ids=map(str, range(10)))
def test_answers_of_libraries(tmp_path, answer, said):
    library = LibraryBackend(made_up(str(tmp_path), "0", head=MADE_UP % answer))
    if isinstance(said, bytes):
        assert library.make(b"BELL\n") == said
        return
    with pytest.raises(nap.NotMade if isinstance(said, str) else said) as told:
        library.make(b"BELL\n")
    assert not isinstance(said, str) or str(told.value) == said


def test_a_library_without_make_answers_all_else(tmp_path):
    library = LibraryBackend(made_up(str(tmp_path), "0, 0, 0, 3"))
    assert library.answer("check", b"", 0).entries == 3
    with pytest.raises(nap.WrongLibrary, match="naplps_make"):
        library.make(b"")
