"""The readers of canonical streams, in Python, in JavaScript and the example in C, beside the program.

They are tried with the canonical streams of vectors and rows, of the gallery and of pages made by chance, and with
random and changed bytes. NAPLPS_CANONICAL_TRIAL=full takes 100,000 pages and 1,000,000 strings of bytes; without it
they are some thousands.
"""
import os
import random
import shutil
import subprocess
import sys
from pathlib import Path

import pytest

from canonical_trial import asked, build_words, by_node, by_words, made, spoken, words_of
from canonical_vectors import vectors
from command import PACKAGES, TOP
from entries import legal_list
from gallery import pages
from naplps import canonical
from naplps.entry import read_line
from samples import has, needs_node

from dev.vectors.crate_rows import rows_of
from dev.vectors.notation import bytes_of
from dev.vectors.rows import files, vectors_of

FULL = os.environ.get("NAPLPS_CANONICAL_TRIAL") == "full"
PAGES, STRINGS, CHUNK = (100_000, 1_000_000, 2_000) if FULL else (1_000, 10_000, 1_000)
REFUSED = os.path.join(TOP, "vectors", "not-canonical.txt")
DOCUMENT = os.path.join(TOP, "docs", "CANONICAL.md")


@pytest.fixture(scope="module")
def words(tmp_path_factory):
    """The example in C, where a compiler is there."""
    return build_words(str(tmp_path_factory.mktemp("words"))) if has("cc") else ""


def agree(naplps, words, streams):
    """The readers agree on each of these, and with the program where they take one; how many they took, and how many
    of these the program prints unchanged."""
    said, listed = [spoken(each) for each in streams], asked(naplps, streams)
    if has("node"):
        assert by_node(streams) == [each.line for each in said]
    for mine, (line, text) in zip(said, by_words(words, streams) if words else ()):
        wanted = words_of(mine.lines.decode("ascii").splitlines())
        assert (line, text) == ((f"accepted {len(wanted)}", wanted) if mine.accepted else (mine.line, b""))
    for stream, mine, program in zip(streams, said, listed):
        assert not mine.accepted or mine.lines == program.lines, stream.hex()
        assert mine.accepted or stream != program.canonical, (stream.hex(), mine.line)
    unchanged = sum(stream == program.canonical for stream, program in zip(streams, listed))
    return sum(mine.accepted for mine in said), unchanged


def test_vectors_and_rows_by_their_documented_lines(naplps, words):
    found = list(vectors())
    assert len(found) > 2_500
    for stream, lines in found:
        assert [entry.line for entry in canonical.read(stream)] == lines
    assert agree(naplps, words, [stream for stream, _ in found])[0] == len(found)


def test_every_page_of_vectors_rows_and_the_gallery(naplps, words):
    streams = [vector.data for file in files() for vector in vectors_of(file)]
    streams += [row.stream for row in rows_of(Path(TOP, "crates", "nap_rows", "data"))]
    some = [each.canonical for each in asked(naplps, [*streams, *pages().values()]) if each.canonical]
    assert agree(naplps, words, some) == (len(some), len(some)) and len(some) > 2_710


def random_pages(naplps, seed, count):
    """Canonical streams of lists made by chance."""
    chance = random.Random(seed)
    return made(naplps, [[str(each) for each in legal_list(chance, chance.randrange(1, 30))] for _ in range(count)])


def test_pages_made_by_chance(naplps, words):
    for seed in range(PAGES // CHUNK):
        assert agree(naplps, words, random_pages(naplps, seed, CHUNK)) == (CHUNK, CHUNK)


def changed(chance, streams):
    """One of these streams changed, or random bytes, often behind the header."""
    if chance.random() < 0.2:
        header = canonical.HEADER if chance.random() < 0.8 else b""
        top = chance.choice((128, 256))
        return header + bytes(chance.randrange(top) for _ in range(chance.randrange(60)))
    data = bytearray(chance.choice(streams))
    for _ in range(chance.choice((1, 1, 1, 2, 5))):
        at, how = chance.randrange(len(data) + 1), chance.randrange(5)
        if how == 0:
            data[at:at + 1] = bytes((chance.randrange(256),))
        elif how == 1:
            del data[at:at + chance.choice((1, 1, 8, 30))]
        elif how == 2:
            data[at:at] = bytes((chance.choice((0x07, 0x0E, 0x0F, 0x1B, 0x28, 0x3C, 0x3E, 0x40, 0x41)),))
        elif how == 3:
            other = chance.choice(streams)
            data[at:] = other[chance.randrange(len(other)):]
        else:
            piece = data[at:at + chance.randrange(1, 40)]
            data[at:at] = piece
    return bytes(data)


def test_random_and_changed_bytes(naplps, words):
    streams = [stream for stream, _ in vectors() if len(stream) < 500] + random_pages(naplps, "changed", 1_000)
    chance, taken, unchanged = random.Random(87), 0, 0
    for _ in range(STRINGS // CHUNK):
        found = agree(naplps, words, [changed(chance, streams) for _ in range(CHUNK)])
        taken, unchanged = taken + found[0], unchanged + found[1]
    assert taken > STRINGS // 100 and unchanged > STRINGS // 200
    print(f"{STRINGS} strings of bytes: {taken} taken, {unchanged} canonical")


def refusals():
    """The vectors of refusals: name, stream, and what is said."""
    lines = Path(REFUSED).read_text("ascii").splitlines()
    for title, row in zip(lines[1::2], lines[2::2]):
        stream, said = row.split(" | ")
        yield title[2:title.index(":")], bytes_of(stream), said


def test_each_row_of_the_table_of_refusals_has_vectors_that_all_three_refuse(words):
    table = Path(DOCUMENT).read_text("utf-8").split("## Refusals")[1].split("\n## ")[0]
    names = [line.split(" | ")[0][2:] for line in table.splitlines() if line.startswith("| ")][1:]
    found = list(refusals())
    assert sorted(names) == sorted({name for name, _, _ in found}) and len(names) == 13
    for name, stream, said in found:
        assert said.startswith(f"refused {name} at ") and spoken(stream).line == said
    streams, wanted = [stream for _, stream, _ in found], [said for _, _, said in found]
    if has("node"):
        assert by_node(streams) == wanted
    if words:
        assert [line for line, _ in by_words(words, streams)] == wanted


def test_entries_are_those_of_the_module_and_come_before_a_refusal():
    stream = bytes_of("0E 21 5F 0C 26 52 40*7 0F 41")
    found = list(canonical.read(bytearray(stream)))
    assert [each.entry for each in found] == [read_line(each.line) for each in found]
    assert [(each.kind, each.place, str(each)) for each in found] == [
        ("CLEAR", 3, "CLEAR pen=start"), ("POINT", 13, "POINT 4194304,4194304 pel=0,0 colour=own-start"),
        ("CHAR", 14, "CHAR primary 41 pen=4194304,4194304 colour=own-start text=0,0/normal/----")]
    found = canonical.read(bytes_of("0E 21 5F 07 0C 80"))
    assert [next(found).line, next(found).line] == ["BELL", "CLEAR pen=start"]
    with pytest.raises(canonical.NotCanonical) as refusal:
        next(found)
    assert (refusal.value.reason, refusal.value.place) == ("BadCode", 5)


HOSTILE = ("26 (52 40 40 40 40 40 40 40)*2048", "07", "0F 41", "1B 43 41 1B 45", "3E 44 40 40 40 3C 40*8", "1B 48",
           "3E 40*4 3C 40*8 3E 41 40*3 3C 40*8", "36 40*16008", "21 5F 40*8", "20 41 41 21 5F", "26")


@pytest.mark.parametrize("part", HOSTILE)
def test_no_more_steps_than_bytes(part, monkeypatch):
    stream = canonical.HEADER + bytes_of(part) * (300_000 // len(bytes_of(part)))
    steps, code = [], canonical._Reader.code
    monkeypatch.setattr(canonical._Reader, "code", lambda reader: steps.append(1) or code(reader))
    line = spoken(stream).line
    assert line.startswith(("accepted ", "refused ")) and len(steps) <= len(stream)
    if has("node"):
        assert by_node([stream]) == [line]


def lists(words, stream, **more):
    said = subprocess.run([*words, "list"], input=stream, capture_output=True, **more)
    return said.returncode, said.stdout, said.stderr


READERS = {"python": [sys.executable, os.path.join(PACKAGES, "naplps", "canonical.py")],
           "node": ["node", os.path.join(TOP, "browser", "list-canonical.mjs")]}


@pytest.mark.parametrize("reader", READERS)
def test_readers_as_programs(reader):
    if not has(READERS[reader][0]):
        pytest.skip("not tried: there is no node (Debian: apt-get install nodejs)")
    good, bad = bytes_of("0E 21 5F 0C 07"), bytes_of("0E 21 5F 07 27")
    assert lists(READERS[reader], good) == (0, b"CLEAR pen=start\nBELL\n", b"")
    assert lists(READERS[reader], bad) == (1, b"", b"refused BadCode at 4\n")
    said = subprocess.run(READERS[reader], input=good, capture_output=True)
    assert (said.returncode, said.stdout) == (2, b"") and said.stderr.startswith(b"usage: ")


def test_the_file_alone_is_enough(tmp_path):
    shutil.copy(READERS["python"][1], tmp_path)
    lines = "import canonical; print([entry.members for entry in canonical.read(bytes.fromhex('0e215f07'))])"
    said = subprocess.run([sys.executable, "-I", "-c", f"import sys; sys.path.insert(0, '.'); {lines}"], cwd=tmp_path,
                          env={"PATH": "/nowhere"}, capture_output=True, text=True)
    assert (said.stdout, said.stderr) == ("[{'kind': 'BELL', 'place': 3}]\n", "")


@needs_node
def test_the_module_is_script_text_too(tmp_path):
    text = Path(TOP, "browser", "canonical.mjs").read_text("utf-8")
    script, _, exported = text.rpartition("export { ")
    assert exported == "NotCanonical, lineOf, read };\n" and "import " not in script.replace("//     import ", "")
    script += "const [it] = read(Uint8Array.of(14, 33, 95, 7)); console.log(lineOf(it));"
    path = tmp_path / "script.cjs"
    path.write_text(script, "utf-8")
    assert subprocess.run(["node", str(path)], capture_output=True, check=True).stdout == b"BELL\n"


@pytest.mark.skipif(not (has("node") and has("npm")), reason="not tried: there is no npm (Debian: apt-get install npm)")
def test_npm_packs_and_installs_it(tmp_path):
    quiet = {**os.environ, "npm_config_cache": str(tmp_path / "cache"), "npm_config_offline": "true",
             "npm_config_audit": "false", "npm_config_fund": "false", "npm_config_update_notifier": "false"}
    packed = subprocess.run(["npm", "pack", os.path.join(TOP, "browser")], cwd=tmp_path, env=quiet, capture_output=True,
                            text=True)
    assert packed.returncode == 0, packed.stderr
    user = tmp_path / "user"
    user.mkdir()
    (user / "package.json").write_text('{"name": "user", "type": "module"}', "ascii")
    told = subprocess.run(["npm", "install", str(tmp_path / packed.stdout.split()[-1])], cwd=user, env=quiet,
                          capture_output=True, text=True)
    assert told.returncode == 0, told.stderr
    (user / "use.js").write_text("import { read, lineOf } from 'naplps/canonical';\n"
                                 "for (const it of read(Uint8Array.of(14, 33, 95, 7))) console.log(lineOf(it));\n")
    assert subprocess.run(["node", "use.js"], cwd=user, capture_output=True, check=True).stdout == b"BELL\n"
    assert lists(["node_modules/.bin/naplps-canonical"], bytes_of("0E 21 5F 07"), cwd=user) == (0, b"BELL\n", b"")
