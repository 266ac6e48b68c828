"""What the worst pages known take of a painter of dots, in Python and in JavaScript: processor and memory."""
import os
import sys

import pytest
from command import PACKAGES, TOP
from naplps.dots.shapes import PAGE, painted
from naplps.dots.surface import BLACK, WHITE
from naplps.entry import read_line
from peaks import with_peak
from samples import needs_node

# Masks of 256 x 256 dots that are empty and count nothing; 3,000 of them once took 24 to 66 seconds.
MASKS = ["MASK A", "END", "RECT-FILLED 0,0 1,1 pel=0,0 colour=own-start texture=32/8388607,8388607"] * 3000
# One entry of 85,000 dashes, each 256 dots high; it once took a gigabyte.
DASHED = "POLY-OUTLINED %spel=32768,8388607 colour=own-start texture=1/none"
DASHES = [DASHED % ("0,0 8388607,0 " * 500)]
# A mask of one upright line at 4,000 sizes, whose pictures together have a gigabyte in JavaScript.
SIZES = ["MASK A", "LINE 0,0 0,8388607 pel=0,0 colour=own-start texture=0/none", "END"] + [
    "RECT-FILLED 0,0 1,1 pel=0,0 colour=own-start texture=32/%d,%d" % (wide * 32768, high * 32768)
    for wide in range(255, 175, -1) for high in range(250, 200, -1)]
# (of the dashes each line begins a little less than a dot later in the period of three, so all dots are painted; of the
# rectangles at 0,0 each has one dot)
PAGES = {"masks": (MASKS, 12, 0), "dashes": (DASHES, 60, 51200), "sizes": (SIZES, 30, 1)}
# Each painter, and the mebibytes that it may have.
PAINTERS = {
    "python": ([sys.executable, "-m", "naplps.dots"], 64),
    "javascript": (["node", os.path.join(TOP, "browser", "list-dots.mjs")], 256),
}


def test_a_part_has_some_thousand_spans():
    parts = [len(part.spans) for part in painted(read_line(DASHED % ("0,0 8388607,0 " * 10)), PAGE)]
    # (20 lines with 85 or 86 dashes, one in three dots, each 200 rows high)
    assert max(parts) < 4096 + 200 and 20 * 85 * 200 <= sum(parts) <= 20 * 86 * 200


@pytest.mark.parametrize("page", PAGES)
@pytest.mark.parametrize("painter", ["python", pytest.param("javascript", marks=needs_node)])
def test_processor_and_memory(painter, page):
    (words, memory), (lines, seconds, white) = PAINTERS[painter], PAGES[page]
    said, peak = with_peak(["prlimit", f"--cpu={seconds}", *words], cwd=PACKAGES,
                           input="\n".join([*lines, ""]).encode("ascii"))
    assert said.returncode == 0 and peak < memory << 20, said.stderr
    assert said.stdout.decode("ascii").split() == [str(WHITE)] * white + [str(BLACK)] * (51200 - white)
