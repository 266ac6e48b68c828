"""Reports of refused pages that treatments make readable: the treated copy is drawn, marked, and counted."""
import re
import sqlite3
from contextlib import closing
from pathlib import Path
from random import Random

import pytest

from naplps.client import Client
from naplps_pages.report.drawing import DrawingLimits, draw
from naplps_pages.report.questions import Questions
from old_files import midst
from pictures import picture
from reports import held
from samples import OUTSIDE, with_parity
from scans import tree
from stores import earlier

PAGE = picture(Random(5), 1)
FILES = {"as it is": PAGE, "parity": with_parity(PAGE), "end": PAGE + b"\x1a", "guess": midst(PAGE, b"\x18"),
         "out": OUTSIDE}


@pytest.fixture
def store(run, tmp_path):
    pages, store = tree(str(tmp_path / "pages"), FILES), str(tmp_path / "pages.db")
    assert run(["scan", pages, "-o", store], keeps="repair").returncode == 0
    return store


def drawings(path):
    """The sketches, texts and lists of a report, by the names of its files."""
    table, (block,) = held(path)
    columns = table["columns"]
    return {name: {what: block[what][at] for what in ("sketch", "text", "lines", "entries", "why")}
            for name, at in zip(columns["name"], columns["sketch"])}


def caption(sketch):
    """What a sketch says of itself, and the sketch without that."""
    found = re.search(r"Sketch of [0-9]+ entries(; [^<]*)?", sketch)
    return (found[1] or "")[2:], sketch.replace(found[0], "")


@pytest.mark.parametrize("as_before", [False, True])
def test_the_treated_copy_is_drawn_and_marked(run, store, tmp_path, as_before):
    path = str(tmp_path / "report.html")
    it = earlier(store, store + ".old") if as_before else store
    assert run(["report", it, "-o", path]).returncode == 0
    found = drawings(path)
    told, plain = caption(found["as it is"]["sketch"])
    assert told == ""
    for name, marked in (("parity", "treated by parity (around)"), ("end", "treated by tail (around)"),
                         ("guess", "treated by can (within, a guess)")):
        assert caption(found[name]["sketch"]) == (marked, plain), name
        assert {**found[name], "sketch": ""} == {**found["as it is"], "sketch": ""}
    assert "then refused 10 Outside" in found["out"]["sketch"]
    table, _ = held(path)
    columns = table["columns"]
    cures = {name: table["cures"][at] for name, at in zip(columns["name"], columns["cure"]) if at >= 0}
    assert cures == {"parity": "parity (around)", "end": "tail (around)", "guess": "can (within, a guess)", "out": ""}


def test_the_chart_says_what_is_readable_by_what(run, store, tmp_path):
    path = str(tmp_path / "report.html")
    assert run(["report", store, "-o", path]).returncode == 0
    means = dict(re.findall(r'data-answer="([^"]*)".*?class="means">([^<]*)<', Path(path).read_text("utf-8")))
    assert means["1 EighthBit"].endswith(" Readable when treated: 1 by parity (around).")
    assert means["6 LeftOut CAN"].endswith(" Readable when treated: 1 by can (within, a guess).")
    assert "Readable" not in means["10 Outside"]


def test_a_served_report_draws_it_too(store, naplps):
    with closing(Questions(store)) as questions, closing(Client(naplps)) as client:
        files = {each["name"]: each for each in questions.ask("files", {"from": "0", "count": "9"})["files"]}
        assert {name: each["treated"] for name, each in files.items()} == {
            "as it is": "", "parity": "parity (around)", "end": "tail (around)", "guess": "can (within, a guess)",
            "out": ""}
        made = {name: draw(client, questions.drawing_task({"key": each["key"]}), DrawingLimits(1 << 20, 1000, 10))
                for name, each in files.items()}
        assert made["parity"].text == made["guess"].text == made["as it is"].text != ""
        assert "a guess" in made["guess"].sketch and "treated by" not in made["as it is"].sketch


def test_a_copy_that_is_another_now_is_not_drawn(run, store, tmp_path):
    with closing(sqlite3.connect(store)) as connection, connection:
        connection.execute("UPDATE cures SET copy = zeroblob(32) WHERE treatments = 'parity'")
    path = str(tmp_path / "report.html")
    said = run(["report", store, "-o", path])
    assert said.returncode == 1 and said.stderr.decode() == (
        f"naplps-pages: {tmp_path}/pages/parity: no sketch: the treatments make another copy than in the scan\n")
    assert drawings(path)["parity"]["why"] == "the treatments make another copy than in the scan"
