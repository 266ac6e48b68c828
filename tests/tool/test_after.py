"""A page after others: their macros, colours and sets stand, and the last page is told alone."""
import json
import os

import pytest
from hypothesis import given
from hypothesis import strategies as st

from command import file
from naplps.answers import Accepted
from naplps_pages.listing import Earlier, Listed, heard, listed
from naplps_pages.player import played
from naplps_pages.source import Page
from players import drawn_of, held
from samples import OUTSIDE, POINT, POINT_LINE, needs_node

# A macro of a point, and G2 for macros; a page that calls it; and one that only continues a run.
FIRST = bytes.fromhex("1B 40 41 0E 26 52 0F 1B 45 1B 2A 7A")
SECOND = b"\x19\x41A"
RUN, GOES_ON = bytes.fromhex("0E 26 52 40 40"), bytes.fromhex("49 40 40 0F 41")
CHAR = "CHAR primary 41 pen=%s colour=own-start text=0,0/normal/----"


@pytest.fixture
def folder(tmp_path):
    for name, data in (("first", FIRST), ("second", SECOND), ("run", RUN), ("goes on", GOES_ON), ("outside", OUTSIDE),
                       ("bad", b"A\x18"), ("open", b"\x1b\x40A\x0e\x26"), ("closes", b"\x52\x0f\x1b\x45A")):
        file(tmp_path, name, data)
    return str(tmp_path)


def lines(run, folder, *words):
    said = run([*words], cwd=folder)
    assert (said.stderr, said.returncode) == (b"", 0)
    return said.stdout.decode().splitlines()


def test_the_last_page_is_told_alone(run, folder):
    assert lines(run, folder, "list", "second", "--previous", "first") == [POINT_LINE, CHAR % "4194304,4194304"]
    assert lines(run, folder, "check", "second", "--previous", "first") == ["accepted 2 entries"]
    assert lines(run, folder, "show", "--format", "text", "second", "--previous", "first") == ["A"]
    (row,) = map(json.loads, lines(run, folder, "list", "second", "--json", "--previous", "first"))
    assert [(each["kind"], each["place"]) for each in row["list"]] == [("POINT", 1), ("CHAR", 2)]
    assert (row["name"], row["entries"]) == ("second", 2)
    assert lines(run, folder, "list", "second")[0].startswith("CHAR supplementary 41")
    (row,) = map(json.loads, lines(run, folder, "check", "second", "--json", "--previous", "first"))
    assert (row["status"], row["entries"], row["kind"]) == ("accepted", 2, "page")


def test_several_pages_in_their_order_and_a_run_that_goes_on(run, folder):
    assert lines(run, folder, "check", "second", "--previous", "first", "--previous", "run") == ["accepted 2 entries"]
    assert lines(run, folder, "check", "second", "first", "--previous", "first") == [
        "second: accepted 2 entries", "first: accepted 0 entries (blank)"]
    told = lines(run, folder, "list", "goes on", "--previous", "run")
    assert [line.split()[0] for line in told] == ["POINT", "POINT", "CHAR"]
    # (a run that ends with the page before belongs to that)
    assert lines(run, folder, "list", "first", "--previous", "run") == []
    assert lines(run, folder, "check", "closes", "--previous", "open") == ["accepted 1 entries"]


def test_explain_has_the_offsets_of_the_last_page(run, folder):
    told = lines(run, folder, "check", "--explain", "second", "--previous", "first")
    assert told[0] == "second: accepted 2 entries"
    assert [(line[:8].strip(), line[10:33].strip(), line[35:61].strip()) for line in told[1:]] == [
        ("0", "19 41", "call of macro 41"), ("2", "41", "character A")]
    assert told[1].split()[-3].startswith(POINT_LINE.split()[-3])
    said = run(["check", "--explain", "outside", "--previous", "first"], cwd=folder)
    told = said.stdout.decode().splitlines()
    assert said.returncode == 1 and told[0] == "outside: refused 10 Outside at 3" and "The code there: LINE ABS" in told


def test_show_draws_over_what_the_earlier_pages_left(run, folder):
    both = run(["show", "second", "--previous", "run", "--previous", "first"], cwd=folder).stdout
    assert both == run(["show", "-"], RUN + FIRST + SECOND).stdout != run(["show", "second"], cwd=folder).stdout


def test_canon_has_no_such_form(run, folder):
    """A canonical stream begins where nothing stands."""
    said = run(["canon", "second", "--previous", "first"], cwd=folder)
    assert (said.stdout, said.returncode) == (b"", 2)
    assert b"--previous" not in run(["canon", "--help"]).stdout and b"--previous" in run(["list", "--help"]).stdout


def test_an_earlier_page_that_is_refused_is_named(run, folder):
    for command in ("check", "list", "show --format text", "show", "show --format html", "check --explain"):
        said = run([*command.split(), "second", "--previous", "first", "--previous", "bad"], cwd=folder)
        assert (said.stdout, said.returncode) == (b"", 3)
        assert said.stderr == b"naplps-pages: second: the page before it, bad, is refused 6 LeftOut CAN at 1\n"
    (row,) = map(json.loads, run(["list", "second", "--json", "--previous", "bad"], cwd=folder).stdout.splitlines())
    assert (row["status"], row["list"]) == ("no answer", None)
    said = run(["list", "outside", "--previous", "first"], cwd=folder)
    assert (said.stderr, said.returncode) == (b"naplps-pages: outside: refused 10 Outside at 3\n", 1)


def test_what_cant_be_read_or_is_too_long(run, folder):
    said = run(["check", "second", "--previous", "none"], cwd=folder)
    assert (said.stdout, said.stderr, said.returncode) == (b"", b"naplps-pages: none: No such file or directory\n", 3)
    file(folder, "long", b"\0" * (16 << 20))
    said = run(["check", "second", "--previous", "long"], cwd=folder)
    assert said.returncode == 3 and said.stderr.endswith(
        b"second: it and the pages before it are longer than 16 MiB together\n")
    said = run(["check", "second", "--previous", "long", "--previous", "first"], cwd=folder)
    assert said.returncode == 3 and said.stderr.endswith(b"first: the earlier pages are longer than 16 MiB\n")
    assert run(["check", "-", "--previous", "-"], cwd=folder).returncode == 2
    assert run(["check", "second", "--previous", "-"], FIRST, cwd=folder).stdout == b"accepted 2 entries\n"


def test_a_player_has_the_entries_of_earlier_pages_in_front(run, folder):
    file(folder, "point", POINT + b"\x0f")
    file(folder, "text", b"A")
    html = os.path.join(folder, "player.html")
    said = run(["show", "text", "--previous", "first", "--previous", "point", "-o", html], cwd=folder)
    assert (said.stdout, said.stderr, said.returncode) == (b"", b"", 0)
    it = held(html)
    assert (it["before"], it["length"], it["places"], it["codes"]["entry"]) == (1, 1, [-1, 0], [-1, 0])
    previous = ["--previous", "first", "--previous", "point"]
    assert it["lines"] == [POINT_LINE, *lines(run, folder, "list", "text", *previous)]
    with open(html, encoding="utf-8") as made:
        assert "It comes after first, point: " in made.read()
    said = run(["show", "second", "--previous", "bad", "-o", html + "2"], cwd=folder)
    assert said.returncode == 3 and said.stderr.endswith(b"the page before it, bad, is refused 6 LeftOut CAN at 1\n")
    assert not os.path.exists(html + "2")


@needs_node
def test_the_entries_of_earlier_pages_are_bounded_too(monkeypatch):
    monkeypatch.setattr("naplps_pages.player.MOST_LINES", 20_000)
    before = ["RECT-FILLED 0,0 4000000,4000000 pel=0,0 colour=own-start texture=0/none", "CLEAR pen=0,0"] * 500
    made = played(b"AB", Listed(Accepted(1), [(0, before[0])]), before=before)
    it = json.loads(made)
    # (84 characters have two lines)
    assert it["before"] == len(it["lines"]) == len(it["places"]) == 2 * (20_000 // 84) and set(it["places"]) == {-1}
    [shown] = drawn_of(made)
    assert shown["before"] == it["before"] and "ends before entry 1:" in shown["notes"][0]


PIECES = st.lists(st.sampled_from([
    POINT, RUN, b"\x49\x40\x40", FIRST, SECOND, b"A", b"\x1b\x46\x42", b"\x0c", b"\x0f", b"\x0e", b"\x0e\x28\x49",
    b"\x07", b"\x0e\x21\x5f", b"\x0e\x3e\x44", b"\x3c\x52", b"\x1b\x43A", b"\x1b\x45", b"\x1b", b"\x1a",
    b"\x0e\x3d\x41\x42"]), max_size=6).map(b"".join)


@given(PIECES, PIECES)
def test_the_entries_of_both_are_those_of_the_joined_stream(program, one, other):
    told = heard(program, Earlier(one, ("one",), (len(one),)), Page("other", other))
    whole, first = listed(program, Page("", one + other)), listed(program, Page("", one))
    if told.last.rows is None:
        return
    assert told.every.rows == whole.rows and whole.rows is not None and first.rows is not None
    mine = [(place + len(one), line) for place, line in told.last.rows]
    assert mine == whole.rows[len(whole.rows) - len(mine):]
    before = whole.rows[:len(whole.rows) - len(mine)]
    # (what comes before are entries of the first page, but for a run that continues)
    assert before == first.rows[:len(before)] and len(first.rows) - len(before) <= sum(
        place == len(one) for place, _ in first.rows)
    assert all(place >= len(one) for place, _ in mine)
