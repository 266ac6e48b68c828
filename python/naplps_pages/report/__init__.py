"""Reports on what a scan found, as HTML, and how much one holds."""
# Pages that have a sketch: usually, and at most.
USUAL_SKETCHES, MOST_SKETCHES = 10_000, 50_000
# More files than these are for `report --serve`.
MOST_FILES = 500_000
# Lines of a page's list, and characters of its text and of its sketch.
HELD_LINES, HELD_TEXT, HELD_SKETCH = 48, 4000, 300_000
# Characters of all drawings that a report holds.
MOST_HELD = 1 << 30
# Characters of a line of a list, here and where pages are served.
A_LINE = 2000
# The same as of a report where pages are served one by one.
SERVED_LINES, SERVED_TEXT, SERVED_SKETCH = 20_000, 200_000, 16 << 20
# The number of pages of a report that can be played; and characters of a player's data, in a report and served.
MOST_PLAYED, HELD_PLAYER, SERVED_PLAYER = 1000, 300_000, 32 << 20
# How many sketches are packed together, at most and at least; how many texts; how many pages that can be played.
A_BLOCK, A_SMALL_BLOCK, SOME_TEXTS, A_PLAYED_BLOCK = 50, 5, 500, 20
# The number of blocks before blocks have the most, so that several processes can share them.
SMALL_BLOCKS = 32
# Folders that can be chosen.
MOST_FOLDERS = 500
# Characters of a page's text and of its sketch where it is a thumbnail.
SMALL_TEXT, SMALL_SKETCH = 400, 300_000
# Digits of a page's hash in its address, and in a report.
HASH_DIGITS = 16


def in_block(sketches: int) -> int:
    """How many sketches are packed together where there are a number of them."""
    return min(A_BLOCK, max(A_SMALL_BLOCK, sketches // SMALL_BLOCKS))
