"""The drawing in JavaScript, from entries and from lines, beside the one in Python: every step of each page is the
same."""
import json
import os
import random
import subprocess
from pathlib import Path

import pytest

from boxes import made_page
from canonical_trial import asked, framed, made
from canonical_vectors import vectors
from command import LIB, TOP
from entries import legal_list
from gallery import pages
from naplps.drawing import draw
from naplps.entry import members_of, read_line
from naplps.faults import NotALine
from samples import needs_node
from timelines import timeline

pytestmark = needs_node
CHUNK, MADE = 500, 2_000


def asked_for(streams, lists):
    """What drawing_answers.mjs takes: canonical streams and their lists."""
    texts = ("".join(f"{line}\n" for line in lines).encode("ascii") for lines in lists)
    return framed(part for both in zip(streams, texts) for part in both)


def drawn(streams, lists):
    """What browser/drawing.js makes of each stream, which has these lines."""
    said = subprocess.run(["node", os.path.join(LIB, "drawing_answers.mjs")], input=asked_for(streams, lists),
                          capture_output=True)
    assert (said.returncode, said.stderr) == (0, b"")
    return map(json.loads, said.stdout.splitlines())


def assert_same(streams, lists):
    """Both drawings are the same for each stream and the lines of its list; how many steps they have."""
    steps = 0
    for at in range(0, len(streams), CHUNK):
        some, texts = streams[at:at + CHUNK], lists[at:at + CHUNK]
        for stream, lines, mine in zip(some, texts, drawn(some, texts)):
            assert mine == json.loads(timeline(lines).json), stream[:200].hex()
            steps += len(mine["steps"])
    return steps


def test_all_lists_of_the_vectors():
    found = list(vectors())
    steps = assert_same([stream for stream, _ in found], [lines for _, lines in found])
    assert len(found) > 2_500
    print(f"{len(found)} lists, {steps} steps")


def test_the_gallery_made_pages_and_lists_by_chance(naplps):
    chance = random.Random(88)
    lists = [[str(each) for each in legal_list(chance, chance.randrange(1, 40))] for _ in range(500)]
    sources = [*pages().values(), *(made_page(chance) for _ in range(MADE * 5 // 4)), *made(naplps, lists)]
    answers = [each for each in asked(naplps, sources) if each.canonical]
    steps = assert_same([each.canonical for each in answers],
                        [each.lines.decode("ascii").splitlines() for each in answers])
    assert len(answers) > MADE + 500
    print(f"{len(answers)} pages, {steps} steps")


POLYGON = "POLY-FILLED %s pel=0,0 colour=own-start texture=24/none"
# Of how many such lines the dashes are more than a picture has in time, and less than the entries that may be drawn.
CLEARED = 5_000
DASHED = "LINE 0,0 8388607,8388607 pel=1,1 colour=own-start texture=3/none"


@pytest.mark.parametrize("name, lines", [
    ("entries", ["BELL"] * 20_001), ("points", [POLYGON % " ".join(["0,0", "9,9"] * 1_000)] * 101),
    ("dashes", [DASHED] * 2_000), ("bytes", [POLYGON % " ".join(["8000000,8000000", "0,0"] * 1_000)] * 90),
    ("dashes that are cleared", [DASHED, "CLEAR pen=8388607,8388607"] * CLEARED)])
def test_the_bounds(naplps, name, lines):
    """What comes in time counts though it is cleared; a sketch has it all then."""
    [stream] = made(naplps, [lines])
    assert_same([stream], [lines])
    assert next(drawn([stream], [lines]))["drawn"] < len(lines)
    assert len(lines) != 2 * CLEARED or draw(lines).drawn == len(lines)


def test_what_is_no_line_is_none_for_both():
    """Lines of lists that are changed by chance: read alike, or by neither."""
    chance, found = random.Random(90), sorted({line for _, lines in vectors() for line in lines})
    lines, taken = [], 0
    for _ in range(20_000):
        line, other = chance.choice(found), chance.choice(found)
        at, length = chance.randrange(len(line) + 1), chance.choice([0, 1, 1, 2, 5])
        lines.append(line[:at] + chance.choice(["", " ", "0", ",", "-", "x", "\u0661", other[at:at + length]])
                     + line[at + length:])
    said = subprocess.run(["node", os.path.join(LIB, "line_answers.mjs")], capture_output=True, check=True,
                          input="".join(f"{line}\n" for line in lines).encode("utf-8"))
    for line, mine in zip(lines, map(json.loads, said.stdout.splitlines())):
        try:
            wanted = members_of(read_line(line), None)
            del wanted["place"]
        except NotALine:
            wanted = None
        assert mine == wanted, line
        taken += mine is not None
    assert 1_000 < taken < 19_000
    print(f"{taken} of {len(lines)} changed lines")


def test_a_changed_drawing_is_seen(tmp_path):
    """What the comparison is worth: each of these changes of the drawing is told."""
    found = list(vectors())[::7]
    streams, lists = [stream for stream, _ in found], [lines for _, lines in found]
    wanted = [json.loads(timeline(lines).json) for lines in lists]
    changes = (("measure.js", "THIN = 4,", "THIN = 5,"), ("letters.js", "tall: [1 / 40,", "tall: [1 / 39,"),
               ("curves.js", "before[0]) / 6", "before[0]) / 5"),
               ("letters.js", "red, green, blue].map", "green, red, blue].map"))
    for name, before, after in changes:
        folder = tmp_path / str(len(os.listdir(tmp_path)))
        for path in ("browser/canonical.mjs", "browser/drawing.js", "browser/lines.mjs", "browser/package.json",
                     "browser/playing.js", "tests/lib/drawing_answers.mjs",
                     *(f"browser/{part}/{each}" for part in ("drawing", "raster")
                       for each in os.listdir(os.path.join(TOP, "browser", part)))):
            (folder / path).parent.mkdir(parents=True, exist_ok=True)
            text = Path(TOP, path).read_text("utf-8")
            if path == f"browser/drawing/{name}":
                assert before in text
                text = text.replace(before, after)
            (folder / path).write_text(text, "utf-8")
        said = subprocess.run(["node", "tests/lib/drawing_answers.mjs"], cwd=folder, input=asked_for(streams, lists),
                              capture_output=True, check=True)
        assert [json.loads(line) for line in said.stdout.splitlines()] != wanted


def test_sizes():
    folder = os.path.join(TOP, "browser", "drawing")
    for path in (*(os.path.join(folder, name) for name in os.listdir(folder)), f"{folder}.js"):
        lines = Path(path).read_text("utf-8").splitlines()
        assert len(lines) < 800 and max(map(len, lines)) <= 120, path
