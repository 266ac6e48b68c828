"""What is said of a refusal: one text for each code and each common case, with the command in full."""
import json
import os
import subprocess
from pathlib import Path

import pytest

from command import COMMAND, file
from naplps.answers import Refusal
from naplps_pages import refusals
from naplps_pages.refusals import case_of
from samples import LEFT_OUT, POINT, with_parity
from scans import store_of
from spelled import logo


def test_each_code_has_a_text_and_a_number_of_its_own():
    assert refusals.CODES == {text.replace(" ", "").lower(): name for name, text in LEFT_OUT.items()}
    texts = [refusals.text_of(6, name) for name in LEFT_OUT]
    assert [each.code for each in texts] == list(LEFT_OUT)
    assert len({each.means for each in texts}) == len(LEFT_OUT)
    for each in refusals.every():
        assert "profile" not in each.means + each.causes + each.do
        assert each.means.endswith(".") and (not each.command or each.command.startswith("naplps-pages "))
    assert refusals.text_of(6, "ANOTHER").title == "6 LeftOut" and refusals.text_of(10, "", "at the end").number == 10


@pytest.mark.parametrize("name", LEFT_OUT)
def test_the_text_of_a_code_is_that_of_the_answer(run, tmp_path, name):
    page = POINT + bytes.fromhex(LEFT_OUT[name]) + b"\x0f" + b"A" * 2000
    said = run(["check", "--explain", file(tmp_path, "page", page)]).stdout.decode()
    assert ": refused 6 LeftOut %s at " % name in said
    assert refusals.text_of(6, name).means in " ".join(said.split())


CASES = (
    (with_parity(logo()), 1, None, "parity"), (with_parity(logo(), odd=True), 1, None, "parity"),
    (POINT + b"\xff", 1, None, ""),
    (with_parity(POINT), 1, None, "mark"), (b"\x1b\x22\x46" + POINT, 2, None, "at the front"),
    (b"\x1f\x45\x52\x18\x1b\x22\x46" + POINT, 6, "NSR", "at the front"), (POINT + b"\x1b\x22\x46", 2, None, ""),
    (b"\x18" + POINT, 6, "CAN", "at the front"), (POINT + b"\x18", 6, "CAN", ""), (POINT + b"\x1f", 6, "NSR", ""),
    (POINT + b"\x1a", 6, "SDC", "at the end"), (POINT + b"\x1a" + b"\xe5" * 1023, 6, "SDC", "at the end"),
    (POINT + b"\x1a" + b"A" * 1024, 6, "SDC", ""), (b"\x1b\x5f" + POINT, 6, "UNPROTECT", ""))


@pytest.mark.parametrize("data, number, code, case", CASES)
def test_cases(run, tmp_path, data, number, code, case):
    row = json.loads(run(["check", "--json", file(tmp_path, "page", data)]).stdout)
    assert (row["number"], row["code"]) == (number, code)
    assert case_of(data, Refusal(number, row["fault"], code, row["place"])) == case
    text = refusals.text_of(number, code or "", case)
    assert (text.code, text.case) == (code or "", case)
    said = run(["check", "--explain", "page"], cwd=str(tmp_path)).stdout.decode()
    assert text.means in " ".join(said.split())


def test_the_command_is_told_in_full_and_runs(run, naplps, tmp_path):
    name = "grandma's $(page).nap"
    file(tmp_path, name, POINT + b"\x1a")
    said = run(["check", "--explain", name], cwd=str(tmp_path)).stdout.decode()
    (command,) = [line.strip() for line in said.splitlines() if line.startswith("    naplps-pages ")]
    env = dict(os.environ, NAPLPS=naplps, PATH=os.path.dirname(COMMAND) + os.pathsep + os.environ["PATH"])
    assert subprocess.run(["sh", "-c", command], cwd=str(tmp_path), capture_output=True, env=env).returncode == 0
    assert sorted(os.listdir(str(tmp_path / "fixed"))) == [name, name + ".json"]
    for odd in ("-", "a\nb"):
        file(tmp_path, odd, POINT + b"\x1a")
        said = run(["check", "--explain", odd], POINT + b"\x1a", cwd=str(tmp_path)).stdout.decode()
        assert "    naplps-pages fix PAGE -o fixed\n" in said


@pytest.fixture
def store(run, tmp_path):
    """The store of a page for each code, two for SDC, and one that is refused otherwise."""
    return store_of(run, tmp_path, {
        **{name: POINT + bytes.fromhex(text) + b"A" for name, text in LEFT_OUT.items()}, "SDC again": POINT + b"\x1a",
        "eight": b"\xff"})


@pytest.mark.parametrize("word, names", [
    ("SDC", ["SDC", "SDC again"]), ("sdc", ["SDC", "SDC again"]), ("1A", ["SDC", "SDC again"]), ("0x18", ["CAN"]),
    ("1B 5F", ["UNPROTECT"]), ("3a", ["INCREMENTAL-LINE"]), ("EighthBit", ["eight"]), ("1", ["eight"]),
    ("6", sorted([*LEFT_OUT, "SDC again"])), ("leftout", sorted([*LEFT_OUT, "SDC again"])), ("18", []), ("Cut", [])])
def test_refused_by_a_reason(run, store, word, names):
    said = run(["files", store, "-0", "--reason", word])
    assert sorted(os.path.basename(name.decode()) for name in said.stdout.split(b"\0")[:-1]) == names


def test_refused_counts_by_code(run, store):
    told = run(["files", store, "--refused"]).stdout.decode()
    heads = [line for line in told.splitlines() if not line.startswith(" ")]
    assert heads[0] == "6 LeftOut SDC: 2 pages, 2 files"
    assert sorted(heads[1:]) == sorted(["1 EighthBit: 1 page, 1 file"] + [
        "6 LeftOut %s: 1 page, 1 file" % name for name in LEFT_OUT if name != "SDC"])


@pytest.mark.parametrize("word", ["", "XYZ", "99", "0x1", "1C", "-1", "SDC CAN"])
def test_a_reason_that_there_isnt(run, word):
    said = run(["files", "s", "--reason=" + word])
    assert said.returncode == 2 and b"a refusal or a code, not %r: 1 EighthBit, 2 " % word in said.stderr
    assert said.stderr.endswith(b"the codes of LeftOut are 18 CAN, 1A SDC, 1F NSR, 1B42 DEFT, 1B51 EDC1, 1B52 EDC2, "
                                b"1B53 EDC3, 1B54 EDC4, 1B5F UNPROTECT, 39 INCREMENTAL-POINT, 3A INCREMENTAL-LINE, "
                                b"3B INCREMENTAL-POLY\n")


def test_the_report_has_the_text_of_the_code(run, store, tmp_path):
    made = str(tmp_path / "report.html")
    assert run(["report", store, "-o", made]).returncode == 0
    html = Path(made).read_text("utf-8")
    assert "CP/M and MS-DOS end a file with it" in html and "The profile leaves" not in html
