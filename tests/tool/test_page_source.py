"""Sources of pages: what each entry is written as, that `make` makes the same page of it, and make --from.

SOURCES says how many lists are written and read, and NAPLPS_SOURCES how many pages are made by chance; without them it
is some hundreds.
"""
import os
from pathlib import Path
from random import Random

import pytest
from hypothesis import given

import entries as listed
import gallery
import naplps as nap
from command import TOP, file
from libraries import library_path
from lines import line_of
from naplps import backends
from naplps.backends import LibraryBackend
from naplps.entry import read
from naplps.limits import MOST_BUDGET, MOST_LISTED, USUAL_BUDGET
from naplps_pages.authoring.translating import translate
from naplps_pages.authoring.writing import source_lines
from samples import BOMB, OUTSIDE
from strategies import pages

from dev.vectors.crate_rows import rows_of
from dev.vectors.rows import files, vectors_of

LISTS, PAGES = int(os.environ.get("SOURCES", "400")), int(os.environ.get("NAPLPS_SOURCES", "300"))
# Of so many pages one is long.
SELDOM, SHORT, LONG = 50, 60, 600
WRITTEN = ("accents", "ferry", "index", "logo", "notice")


def written(*lines):
    """The source of these lines of a list, of which the same lines come back."""
    source = list(source_lines(list(read(lines))))
    made = translate("\n".join(source))
    assert made.mistakes == [] and bytes(made.text).decode("ascii").splitlines() == list(lines)
    return source


@pytest.mark.parametrize("line, source", [
    ("POINT 4194304,2097152 pel=0,0 colour=own-start", "POINT 0.5,0.25"),
    ("POINT 8388607,0 pel=0,0 colour=own-start", "POINT 1.0,0"),
    ("POINT 419430,6553600 pel=0,0 colour=own-start", "POINT 0.05,top"),
    ("POINT 32768,8388606 pel=0,0 colour=own-start", "POINT 32768,8388606"),
    ("POINT 32768,0 pel=-8388608,8388607 colour=own-start", "POINT 0.00390625,0 pel=-1.0,1.0"),
    ("POINT 0,0 pel=83886,-83886 colour=direct:0,65535,0", "POINT 0,0 pel=0.01,-0.01 colour=red"),
    ("POINT 0,0 pel=0,0 colour=direct:257,0,771", "POINT 0,0 colour=#000103"),
    ("POINT 0,0 pel=0,0 colour=direct:1,0,0", "POINT 0,0 colour=direct:1,0,0"),
    ("POINT 0,0 pel=0,0 colour=front:1048576", "POINT 0,0 colour=front:1/16"),
    ("POINT 0,0 pel=0,0 colour=pair:0,1", "POINT 0,0 colour=pair:0,1"),
    ("LINE 0,0 1,1 pel=0,0 colour=own-start texture=18/none", "LINE 0,0 1,1 texture=dashed+horizontal"),
    ("LINE 0,0 1,1 pel=0,0 colour=own-start texture=0/1,2", "LINE 0,0 1,1 texture=solid/1,2"),
    ("ARC-OUTLINED 2097152,0 6291456,0 2097152,0 pel=0,0 colour=own-start texture=0/none", "CIRCLE 0.5,0 0.25"),
    ("ARC-FILLED 1,0 4,0 1,0 pel=0,0 colour=own-start texture=0/none", "ARC-FILLED 1,0 4,0 1,0"),
    ("ARC-FILLED 4,0 2,0 4,0 pel=0,0 colour=own-start texture=0/none", "ARC-FILLED 4,0 2,0 4,0"),
    ("CHAR primary 7f pen=start colour=own-start text=0,0/normal/----", "CHAR primary 7f"),
    ("CHAR supplementary 42 pen=start colour=own-start text=0,0/normal/----", "CHAR supplementary 42"),
    ("CHAR primary 22 pen=0,0 colour=own-start text=0,0/double/-u--", 'TEXT pen=0,0 text=double/-u-- "\\""'),
    ("CHAR primary 5c pen=start colour=own-start text=1,2/normal/----", 'TEXT text=1,2/normal/---- "\\\\"'),
    ("TO-EOL pen=start colour=own-start text=0,0/4194304,1/----", "TO-EOL text=4194304,1"),
    ("MOVE APS 2a 2b pen=start colour=own-start text=0,0/normal/----", "MOVE APS 2a 2b"),
    ("MAP 12582912 0,0,65535", "MAP 3/4 blue"), ("MAP 0 1,2,3", "MAP 0 1,2,3"), ("MAP 7 257,0,0", "MAP 7 #000100"),
    ("BLINK 8388608 1,2,3 colour=own-start", "BLINK 1/2 1,2,3"), ("BLINK-END colour=own-start", "BLINK-END"),
    ("FIELD 0,0 4194304,4194304 pen=start", "FIELD 0,0 0.5,0.5"), ("FIELD whole pen=start", "FIELD whole"),
    ("RESET 0 63 pen=start", "RESET 0 63"), ("CLEAR pen=start", "CLEAR"), ("WAIT 9", "WAIT 9"), ("BELL", "BELL"),
    ("CURSOR off", "CURSOR off")])
def test_each_entry_as_a_person_writes_it(line, source):
    assert translate(source).mistakes == []
    entry = next(iter(read([line])))
    assert list(source_lines([entry])) == [source]
    assert bytes(translate(source).text).decode("ascii") == line + "\n"


def test_what_carries_on_is_left_out_and_parts_have_comments():
    look, ink = "colour=direct:0,65535,0 text=0,0/normal/----", "pel=0,0 colour=direct:0,65535,0 texture=0/none"
    assert written(
        f"LINE 0,0 0,0 {ink}", f"LINE 0,0 1,1 {ink}", f"RECT-FILLED 1,1 2,2 {ink}",
        f"CHAR primary 41 pen=2,1 {look}", f"CHAR supplementary 42 pen=after {look}",
        f"CHAR primary 65 pen=after {look}",
        f"CHAR mosaic 41 pen=after {look}", f"CHAR primary 42 pen=0,0 {look}",
        "GLYPH 41", "POINT 0,0 pel=0,0 colour=direct:0,65535,0", "END") == [
        "# drawing", "LINE 0,0 0,0 colour=red", "LINE 0,0 1,1", "RECT-FILLED 1,1 2,2",
        "# text", 'TEXT "Aé"', "CHAR mosaic 41", 'TEXT pen=0,0 "B"',
        "# the character 41 of the set drcs", "GLYPH 41", "POINT 0,0", "END"]


def test_many_lists_come_back():
    for seed in range(LISTS):
        chance = Random(seed)
        written(*(line_of(entry) for entry in listed.legal_list(chance, chance.randrange(60))))


@pytest.mark.parametrize("name", sorted(name for name in os.listdir(gallery.FOLDER) if name.endswith(".nap")))
def test_the_pages_of_the_gallery_come_back(run, name):
    path = os.path.join(gallery.FOLDER, name)
    said = run(["make", "--from", path])
    if name == "signature.nap":
        assert (said.returncode, said.stdout) == (1, b"")
        return
    assert (said.returncode, said.stderr) == (0, b"")
    assert run(["make", "-"], said.stdout).stdout == run(["canon", path]).stdout
    stem = name[:-len(".nap")]
    if stem in WRITTEN:
        source = Path(gallery.SOURCES, stem + ".txt").read_text("utf-8")
        assert len(said.stdout.splitlines()) <= 2 * len(source.splitlines())


def test_pages_without_a_source(run, tmp_path):
    said = run(["make", "--from", file(tmp_path, "refused.nap", OUTSIDE)])
    assert (said.returncode, said.stdout) == (1, b"")
    assert b"only an accepted page has a source" in said.stderr
    bomb = run(["make", "--from", file(tmp_path, "bomb.nap", BOMB)])
    assert (bomb.returncode, bomb.stdout) == (3, b"") and b"more than 200000 entries" in bomb.stderr
    none = run(["make", "--from", str(tmp_path / "none.nap")])
    assert (none.returncode, none.stdout) == (3, b"") and b"none.nap: No such file" in none.stderr


@pytest.fixture(scope="module")
def library():
    """The module asks the library."""
    before = backends._found
    backends._found = LibraryBackend(library_path())
    yield
    backends._found = before


def remade(page, budget=USUAL_BUDGET):
    """What `make` of the source of a page gives."""
    made = translate("\n".join(source_lines(nap.entries(page, budget))))
    assert made.mistakes == []
    return nap.make(bytes(made.text).decode("ascii").splitlines())


@pytest.mark.usefixtures("library")
def test_pages_made_by_chance():
    differ = entries = 0
    for seed in range(PAGES):
        chance = Random(seed)
        most = SHORT if seed % SELDOM else LONG
        page = nap.make(listed.legal_list(chance, chance.randrange(most)))
        entries += nap.check(page)
        differ += remade(page) != nap.canon(page)
    print(f"{PAGES} pages made by chance, of {entries} entries: {differ} differ")
    assert differ == 0


@pytest.mark.usefixtures("library")
@given(pages())
def test_pages_as_senders_spell_them(page):
    assert remade(page) == nap.canon(page)


def streams():
    """Each accepted stream of the rows and the vectors, with its place."""
    for vector in (each for file in files() for each in vectors_of(file)):
        if vector.accepted:
            yield vector.place, vector.data
    for row in rows_of(Path(TOP, "crates", "nap_rows", "data")):
        if row.canonical is not None:
            yield row.place, row.stream


@pytest.mark.usefixtures("library")
def test_rows_and_vectors():
    count, differ, long = 0, [], []
    for place, stream in streams():
        canonical = nap.canon(stream, MOST_BUDGET)
        if nap.check(canonical) > MOST_LISTED:
            long.append(place)
            continue
        count += 1
        if remade(stream, MOST_BUDGET) != canonical:
            differ.append(place)
    print(f"{count} streams of rows and vectors: {len(differ)} differ; {len(long)} are too long for a source")
    assert differ == [] and count > 2_500 > len(long) * 100
