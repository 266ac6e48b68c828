"""The vectors of dots, most of which were made from docs/RASTER.md alone: what the module paints, and JavaScript; and
that the runner finds what is wrong."""
import os
import subprocess
import sys

from command import PACKAGES, TOP
from dot_vectors import DRAWN, VECTORS
from naplps.dots import raster
from naplps.dots.surface import DIRECT
from naplps.entry import read_line
from samples import needs_node
from vectors import dots

FILES = sorted(VECTORS.glob("dots*.txt"))


def program(folder, *words):
    """A program of these words."""
    path = folder / "program"
    path.write_text("#!/bin/sh\nexec %s\n" % " ".join(f"'{word}'" for word in words))
    path.chmod(0o755)
    return str(path)


def test_the_module_paints_what_the_vectors_have_and_each_move_has_one():
    every = [it for path in FILES for it in dots.vectors(path)]
    assert len(DRAWN) >= 110 and all(it.rows for it in DRAWN)
    assert len({it.name for it in every}) == len(every)
    for it in every:
        painted = raster([read_line(line) for line in it.lines])
        told = [list(painted.inks[at:at + 256]) for at in range(0, 51200, 256)]
        colours = {ink: colour for ink, colour in painted.colours().items() if not ink & DIRECT}
        assert dots._wrong_dots(it, told) is None and dots._wrong_colours(it, told, colours) is None, it.name
        assert it.hash in ("", painted.hash())
    words = [line.split() for it in DRAWN for line in it.lines]
    assert {each[1] for each in words if each[0] == "MOVE"} == {"APB", "APF", "APD", "APU", "APR", "APH", "APS"}


def test_the_runner_takes_the_module_and_tells_what_is_wrong(tmp_path):
    some = tmp_path / "some.txt"
    some.write_text("== right\nPOINT 0,0 pel=0,0 colour=own-start\ndots 0,0\n#\n\n"
                    "== wrong\nPOINT 0,0 pel=0,0 colour=own-start\ndots 0,0\n.#\n")
    path = program(tmp_path, "env", f"PYTHONPATH={PACKAGES}", sys.executable, "-m", "naplps.dots")
    said = subprocess.run([VECTORS / "run", "--dots", path, some], stdout=subprocess.PIPE)
    assert said.returncode == 1 and said.stdout.decode().splitlines() == [
        f"wrong: dot 0,0 has the ink {DIRECT | 0xffffff}, not {DIRECT}", "1 passed, 1 failed"]
    said = subprocess.run([VECTORS / "run", "--dots", "/bin/false", some], stdout=subprocess.PIPE)
    assert said.returncode == 1 and said.stdout.endswith(b"0 passed, 2 failed\n")


@needs_node
def test_the_javascript_paints_what_a_vector_has(tmp_path):
    path = program(tmp_path, "node", os.path.join(TOP, "browser", "list-dots.mjs"))
    some = DRAWN[::8]
    assert [dots.wrong(path, it) for it in some] == [None] * len(some)
