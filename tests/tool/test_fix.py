"""What `fix` gets out of a file: by the first way that gets a page, or by the one that is asked for."""
import json
import os

import pytest

from command import file
from folders import files_in
from samples import OUTSIDE, POINT, with_parity
from spelled import image_with_logo, logo

FILES = {"split": POINT + b"\x1f" + POINT, "repair": with_parity(logo()), "carve": image_with_logo()}


@pytest.mark.parametrize("way", FILES)
def test_the_first_way_that_gets_a_page_is_taken(run, tmp_path, way):
    path = file(tmp_path, "file.nap", FILES[way])
    some = [run(["fix", path, "-o", str(tmp_path / name), *words]) for name, words in (
        ("first", []), ("asked", ["--only", way]))]
    assert [(said.returncode, said.stderr) for said in some] == [(0, b"")] * 2
    first, asked = (files_in(tmp_path / name) for name in ("first", "asked"))
    assert first == asked and any(name.endswith(b".json") for name in first)
    pages = [data for name, data in first.items() if not name.endswith(b".json")]
    assert pages == ([POINT] * 2 if way == "split" else [logo()])


@pytest.mark.parametrize("way", ["", *FILES])
def test_without_a_folder_nothing_is_made(run, tmp_path, way):
    words = ["fix", *(["--only", way] if way else []), file(tmp_path, "file.nap", FILES[way or "carve"])]
    said = run(words)
    assert said.returncode == 0 and said.stdout and os.listdir(str(tmp_path)) == ["file.nap"]
    assert all(isinstance(json.loads(line), dict) for line in run([*words, "--json"]).stdout.splitlines())


@pytest.mark.parametrize("data, words, status", [
    (POINT, [], 0), (OUTSIDE, [], 1), (OUTSIDE, ["--only", "repair"], 1), (OUTSIDE, ["--only", "split"], 1),
    (OUTSIDE, ["--only", "carve"], 1), (POINT, ["--only", "split"], 1), (logo(), ["--only", "carve"], 0),
    (logo(), ["--only", "carve", "--min-entries", "37"], 1), (None, [], 3)])
def test_statuses(run, tmp_path, to, data, words, status):
    path = str(tmp_path / "none") if data is None else file(tmp_path, "file", data)
    assert run(["fix", path, "-o", to, *words]).returncode == status
    assert os.path.exists(to) == (words == ["--only", "carve"] and status == 0)


def test_several_files_have_the_gravest_status(run, tmp_path, to):
    paths = [file(tmp_path, way, data) for way, data in FILES.items()]
    assert run(["fix", *paths, "-o", to]).returncode == 0
    assert sum(not name.endswith(b".json") for name in files_in(to)) == 4
    assert run(["fix", *paths, file(tmp_path, "bad", OUTSIDE)]).returncode == 1
    assert run(["fix", *paths, "bad", str(tmp_path / "none")]).returncode == 3
