"""A Checker that several threads use: one is in it at a time, over the library and over the program."""
import os
import subprocess
import sys
import threading

import pytest

import naplps as nap
from command import PACKAGES
from libraries import SLOW, made_up
from naplps import backends
from naplps.backends import LibraryBackend
from samples import MACRO, OUTSIDE, POINT, POINT_AND_BELL

BUSY = "another thread is in this Checker"


@pytest.fixture
def slow(tmp_path, monkeypatch):
    """A library whose calls take their time, and that tells where two are in one page."""
    path = made_up(str(tmp_path), "0", head=SLOW)
    monkeypatch.setattr(backends, "_found", LibraryBackend(path))
    return path


def by_threads(number, work):
    """Does the work in threads that begin together; what it gave or raised."""
    together, came = threading.Barrier(number), []

    def one():
        together.wait()
        try:
            came.append(work())
        except Exception as error:  # pylint: disable=broad-except
            came.append(error)
    threads = [threading.Thread(target=one) for _ in range(number)]
    for thread in threads:
        thread.start()
    for thread in threads:
        thread.join()
    return came


def is_busy(came):
    return isinstance(came, RuntimeError) and str(came) == BUSY


def test_one_thread_at_a_time_feeds(slow):
    checker = nap.Checker()
    came = by_threads(8, lambda: checker.feed(POINT))
    assert came.count(None) >= 1 and all(each is None or is_busy(each) for each in came)
    assert any(map(is_busy, came))
    with pytest.raises(TypeError):
        checker.feed("text")
    checker.feed(POINT)  # (a piece of no kind is no call that another one could come upon)
    assert checker.finish() == 7


def test_one_thread_at_a_time_finishes(slow):
    checker = nap.Checker()
    came = by_threads(8, checker.finish)
    ended = [each for each in came if isinstance(each, ValueError) and str(each) == "the page has ended"]
    assert came.count(7) == 1 and len(ended) + sum(map(is_busy, came)) == 7


LEFT = """import os, sys, threading, time
import naplps
checker = naplps.Checker()
def feed():
    while True: checker.feed(b'x')
threading.Thread(target=feed, daemon=True).start()
time.sleep(0.05)
if sys.argv[1] == 'fork' and os.fork():
    print(os.wait()[1], flush=True)
    os._exit(0)
del checker, feed
"""


@pytest.mark.parametrize("how", ["end", "fork"])
def test_a_page_is_not_given_up_while_a_thread_is_in_it(slow, how):
    said = subprocess.run([sys.executable, "-B", "-c", LEFT, how], capture_output=True, cwd="/", timeout=900,
                          env={**os.environ, "NAPLPS_LIBRARY": slow, "PYTHONPATH": PACKAGES})
    assert (said.returncode, said.stdout) == (0, b"0\n" if how == "fork" else b"")


def test_many_threads_feed_many_pages(kind):
    def work():
        number = 0
        for checker in checkers:
            try:
                checker.feed(POINT * 50)
                number += 1
            except RuntimeError as error:
                assert is_busy(error)
        return number
    checkers = [nap.Checker() for _ in range(300)]
    fed = by_threads(8, work)
    assert sum(checker.finish() for checker in checkers) == 50 * sum(fed) and min(fed) >= 0


def test_four_threads_ask(kind):
    pages = (POINT, MACRO, POINT * 2000, b"\x07" * 999, POINT_AND_BELL) * 30
    wanted = {page: (nap.canon(page), nap.lines(page)) for page in pages}

    def work():
        for page in pages:
            assert (nap.canon(page), nap.lines(page)) == wanted[page]
            with pytest.raises(nap.Refused):
                nap.check(OUTSIDE)
    assert by_threads(4, work) == [None] * 4
