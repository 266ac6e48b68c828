"""Requests that are written ahead: whatever fails, each page has its own answer."""
import hashlib

import pytest
from hypothesis import given
from hypothesis import strategies as st

from naplps.answers import NONSENSE, Accepted, AnswerParser, HashedAnswer, Nonsense, Refusal, Unanswered
from naplps.client import Client
from naplps.limits import Limits
from samples import OUTSIDE, POINT
from scans import FAKE

CANON = bytes.fromhex("0E215F265240404040404040")


def accepted(page):
    """What the program that fails on some pages says of the others."""
    body = b"canonical " + page[:1]
    return HashedAnswer(Accepted(len(page)), hashlib.sha256(body).digest(), len(body))


def ask(path, pages, **limits):
    client = Client(path, 0, Limits(**{"seconds": 600, **limits}))
    try:
        return client.hash_canon(pages)
    finally:
        client.close()


def test_answers_of_the_program(naplps):
    point = HashedAnswer(Accepted(1), hashlib.sha256(CANON).digest(), 12)
    outside = HashedAnswer(Refusal(10, "Outside", None, 3))
    assert ask(naplps, [POINT, OUTSIDE, POINT] * 100) == [point, outside, point] * 100
    assert ask(naplps, []) == []


def test_a_canonical_stream_that_is_never_held(naplps):
    page = b"\x0e" + b"&R@@" * 200_000
    # (a run has 2,048 points, of which the first comes after the opcode)
    wanted = b"\x0e!_" + b"".join((b"" if at % 2048 else b"&") + b"R@@@@@@@" for at in range(200_000))
    said, = ask(naplps, [page])
    assert said.answer == Accepted(200_000)
    assert said.canon == hashlib.sha256(wanted).digest() and said.length == len(wanted)


@pytest.mark.parametrize("bad, reason, seconds", [
    (b"hang", "no answer in 5 s", 5), (b"die", "the program ended with status 7", 600),
    (b"half", "the program ended with status 0", 600), (b"nonsense", NONSENSE, 600)])
def test_the_first_page_without_an_answer_has_none(fake, bad, reason, seconds):
    for pages in ([b"a", b"b", bad, b"c", b"bad", b"d"], [bad], [bad, b"a", bad, bad], [b"a"] * 40 + [bad]):
        known = {bad: HashedAnswer(Unanswered(reason)), b"bad": HashedAnswer(Refusal(10, "Outside", None, 0))}
        wanted = [known.get(page) or accepted(page) for page in pages]
        assert ask(fake(FAKE), pages, seconds=seconds) == wanted


def test_time_is_for_a_page_and_not_for_all(fake):
    slow = fake(FAKE.replace("    fail(page)\n", "    fail(page)\n    time.sleep(1)\n"))
    assert ask(slow, [b"a"] * 8, seconds=6) == [accepted(b"a")] * 8


def test_a_program_that_isnt_there(tmp_path):
    path = str(tmp_path / "nothing")
    assert ask(path, [b"a", b"b"]) == [
        HashedAnswer(Unanswered("the program can't be started: %s: No such file or directory" % path))] * 2


ANSWERS = st.lists(st.one_of(st.just(b"refused 10 Outside at 0\n0\n"), st.just(b"no memory\n0\n"),
                             st.binary(min_size=1, max_size=300).map(
                                 lambda body: b"accepted 3 entries\n%d\n%b" % (len(body), body))), max_size=6)


@given(ANSWERS, st.data())
def test_answers_may_come_in_any_pieces(answers, data):
    stream = b"".join(answers)
    cuts = sorted(data.draw(st.lists(st.integers(0, len(stream)), max_size=8)))
    parser = AnswerParser("canon", [b""] * len(answers), None)
    for start, end in zip([0, *cuts], [*cuts, len(stream)]):
        if start < end:
            parser.take(stream[start:end])
    assert len(parser.answers) == len(answers)
    for said, answer in zip(parser.answers, answers):
        body = answer.split(b"\n", 2)[2]
        assert (said.length or 0) == len(body) and said.canon == (hashlib.sha256(body).digest() if body else None)


@pytest.mark.parametrize("stream", [
    b"accepted 1 entries\n0\n", b"refused 10 Outside at 0\n1\nx", b"refused 10 Outside at 9\n0\n",
    b"accepted 1 entries\nx\n", b"x" * 200, b"hello\n1\n", b"accepted 1 entries\n1\nxrefused 10 Outside at 0\n0\n"])
def test_what_is_no_answer(stream):
    parser = AnswerParser("canon", [b""], None)
    with pytest.raises(Nonsense):
        parser.take(stream)
    assert parser.answers == []
    assert AnswerParser("canon", [b""], None).take(b"") is False
