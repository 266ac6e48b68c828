"""The commands that documents and manual page show: each is run as it is, in a folder of pages; and their links."""
import glob
import os
import re
import shutil
import subprocess
from urllib.parse import unquote
from urllib.request import urlopen

import pytest

from command import COMMAND, TOP, file
from naplps.answers import Refusal
from naplps_pages import old_words
from naplps_pages.codes import stop_of
from naplps_pages.commands import MODULES, command
from packers import pack
from samples import POINT, with_parity
from spelled import logo

BORDERS = ("docs/STORE.md", "docs/COLLECTIONS.md", "man/naplps-pages.1")
STARTS = (("README.md", "    ", "pages/naplps-pages "), ("README.md", "    ", "./naplps "),
          ("docs/COLLECTIONS.md", "    ", "naplps-pages "), ("man/naplps-pages.1", "$ ", "naplps-pages "))
# The page that a document edits.
FERRY = os.path.join("examples", "gallery", "ferry.nap")
DOCUMENTS = sorted(glob.glob(os.path.join(TOP, "**", "*.md"), recursive=True))


def read(name):
    """The text of a document."""
    with open(os.path.join(TOP, name), encoding="utf-8") as document:
        return document.read()


def shown():
    """The commands of the documents, and those that helps have for an example."""
    for name, margin, start in STARTS:
        for line in read(name).splitlines():
            if line.startswith(margin + start):
                yield line[len(margin):]
    yield from (f"naplps-pages {command(name).example}" for name in MODULES)


def test_readme_says_which_of_the_first_commands_needs_python():
    before, commands = read("README.md").partition("## Get it")[2].split("\n\n    ", 1)
    first = [line.split()[0] for line in commands.split("\n\n")[0].splitlines()]
    assert ["python3" in read(name).splitlines()[0] for name in first] == [False, True]
    assert "with Python for the second" in " ".join(before.split()) and len(list(shown())) > 30


@pytest.mark.parametrize("name", BORDERS)
def test_documents_call_a_designation_by_its_name(name):
    """By ISO 2022 1B 22 designates a C1 set, and an announcer begins with 1B 20."""
    assert stop_of(b"\x1b\x22\x46", Refusal(2, "BadEscape", None, 1)) == "1B 22 46 (designation of a C1 set)"
    found = re.findall(r"((?:\S+ ){3})`?1B 22 46([^`.,]*)", " ".join(read(name).split()))
    assert found and all("designation" in before + after and "announcer" not in before + after
                         for before, after in found)


@pytest.fixture
def folder(tmp_path, naplps, monkeypatch):
    """A folder of pages in which the commands run, as if it were that of the sources."""
    made = os.path.join(str(tmp_path), "folder")
    os.makedirs(os.path.join(made, "pages"))
    for to, name in ((os.path.join(TOP, "examples"), "examples"), (COMMAND, "pages/naplps-pages"), (naplps, "naplps")):
        os.symlink(to, os.path.join(made, name))
    for name, data in (("page.nap", with_parity(logo())), ("other.nap", POINT), ("pages/page.nap", POINT),
                       ("first.nap", POINT), ("disk.img", bytes(100000) + logo() + bytes(63623)),
                       ("capture.nap", POINT + b"\x1f" + POINT), ("session.log", POINT + b"\x1f" + POINT),
                       ("archive/page.nap", POINT)):
        os.makedirs(os.path.dirname(os.path.join(made, name)), exist_ok=True)
        file(made, name, data)
    for name in ("hello.nap", "glyph.nap", "point.nap", "point again.nap"):
        shutil.copy(os.path.join(TOP, "examples", "pages", name), os.path.join(made, "pages"))
    for name in ("ferry.nap", "chart.nap", "sources/ferry.txt"):
        shutil.copy(os.path.join(TOP, "examples", "gallery", name), made)
    for name in ("old.tar", "more.zip"):
        pack(os.path.join(made, name), {"disk 3/logo.nap": logo()})
    monkeypatch.setenv("NAPLPS", naplps)
    monkeypatch.setenv("PATH", os.path.join(made, "pages") + os.pathsep + os.environ["PATH"])
    monkeypatch.chdir(made)


def run_before(*words):
    """Runs a command that comes before the one of a document."""
    subprocess.run(["naplps-pages", *words], check=True)


def assert_is_served(command):
    """Runs a command that serves until it is ended, and opens the address that it prints."""
    with subprocess.Popen(["sh", "-c", "exec " + command], stdout=subprocess.PIPE) as server:
        try:
            with urlopen(server.stdout.readline().decode("ascii").strip()) as page:
                assert page.read(15) == b"<!doctype html>"
        finally:
            server.terminate()


@pytest.mark.parametrize("line", sorted(set(shown())))
def test_commands_of_documents_and_helps(folder, line):
    if "pages.db" in line and "naplps-pages scan" not in line:
        run_before("scan", "pages", "-o", "pages.db")
    if " found" in line and "naplps-pages box" not in line:
        run_before("box", "pages", "-o", "found")
    if " my." in line:
        run_before("make", "--from", FERRY, "-o", "my.txt")
        run_before("make", "my.txt", "-o", "my.nap")
    if " --serve" in line:
        assert_is_served(line)
        return
    said = subprocess.run(["sh", "-c", line], capture_output=True)
    told = said.stderr.decode("utf-8", "replace")
    assert said.returncode in (0, 1), told
    assert all(": refused " in line or " pictures" in line for line in told.splitlines())


def anchors(text):
    """The names by which links reach the headings of a document."""
    headings = re.findall(r"^#+ (.*)$", re.sub(r"^```.*?^```", "", text, flags=re.MULTILINE | re.DOTALL), re.MULTILINE)
    return {re.sub(r"[^\w\- ]", "", heading.lower()).replace(" ", "-") for heading in headings}


@pytest.mark.parametrize("path", DOCUMENTS, ids=lambda path: os.path.relpath(path, TOP))
def test_links_lead_somewhere(path):
    for link in re.findall(r"\]\(([^)]+)\)|<img src=\"([^\"]+)\"", read(path)):
        name, _, heading = unquote("".join(link)).partition("#")
        if not name.startswith("https:"):
            to = os.path.join(os.path.dirname(path), name) if name else path
            assert os.path.exists(to), link
            assert not heading or heading in anchors(read(to)), link


def test_the_changelog_names_each_command_and_option_of_earlier_versions():
    section = read("CHANGELOG.md").split("\n## ")[1]
    assert section.startswith("0.5.0")
    for word in [*old_words.COMMANDS, *old_words.OPTIONS]:
        assert re.search(rf"^\|[^|]*(?<![\w-]){word}(?![\w-])", section, re.MULTILINE), word


def test_the_first_run_is_told_in_one_sentence():
    said = re.search("^first_run='(.*)'$", read("naplps"), re.MULTILINE)
    for name in ("README.md", "CONTRIBUTING.md"):
        assert said and said.group(1) in " ".join(read(name).split())
