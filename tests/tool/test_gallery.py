"""The gallery: its pages are those that are made here, and its sketches those of its pages."""
import hashlib
import os
import xml.etree.ElementTree as ET

import pytest

import gallery
from gallery import AUTHORED, FOLDER, SPELLED, stored
from naplps import backends
from naplps.backends import ProgramBackend

PAGES = gallery.NAMES


@pytest.fixture(autouse=True)
def asked(naplps, monkeypatch):
    """The module and the tool ask the program."""
    monkeypatch.setattr(backends, "_found", ProgramBackend(naplps))
    monkeypatch.setenv("NAPLPS", naplps)
    yield
    backends._found.close()


def test_the_folder_has_these_pages_and_their_sketches_and_the_readme_names_them():
    assert sorted(os.listdir(FOLDER)) == sorted(
        ["README.md", "sources", *PAGES, *[name.replace(".nap", ".nap.svg") for name in PAGES]])
    assert len(AUTHORED) + len(SPELLED) == len(PAGES) and len(AUTHORED) > 8
    text = stored("README.md").decode("utf-8")
    for name in PAGES:
        assert name.replace(" ", "%20") + ".svg" in text or "skyline" in name
    for source in AUTHORED.values():
        assert f"(sources/{source})" in text


@pytest.mark.parametrize("name", AUTHORED)
def test_sources_make_their_pages(name):
    assert stored(name) == gallery.authored(name)


@pytest.mark.parametrize("name", SPELLED)
def test_spelled_pages_stay_as_they_are(name):
    assert hashlib.sha256(stored(name)).hexdigest() == SPELLED[name]


@pytest.mark.parametrize("name", PAGES)
def test_sketches_are_as_they_are_drawn(run, name):
    said = run(["show", os.path.join(FOLDER, name)])
    assert said.stdout == stored(name + ".svg")
    assert said.returncode == (1 if name == "signature.nap" else 0)
    assert name.encode() not in said.stdout
    ET.fromstring(said.stdout)


def test_sketches_of_canonical_pages_are_the_same(run, to):
    names = [os.path.join(FOLDER, name) for name in PAGES if name != "signature.nap"]
    assert run(["canon", *names, "-o", to]).returncode == 0
    for name in os.listdir(to):
        assert run(["show", os.path.join(to, name)]).stdout == stored(name + ".svg")
