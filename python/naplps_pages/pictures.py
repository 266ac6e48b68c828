"""Pictures of pages: a sketch with a note on the page, contact sheets of many pages, and PNG of SVG."""
import math
import os
import subprocess
from typing import List, NamedTuple, Optional

from naplps import drawing
from naplps.answers import Accepted, Refusal
from naplps.client import for_child, on_path
from naplps.drawing import Drawn
from naplps.drawing.measure import HEIGHT, WIDTH
from naplps.drawing.paper import AROUND, MOST_BYTES, MOST_WEIGHT, escaped, is_tall, picture
from naplps.limits import MOST_LISTED

from . import messages
from .listing import Listed


def sketch_of(page: Listed, treated: str = "") -> drawing.Sketch:
    """The sketch of a page that has this answer and these entries, of a copy that is treated so if it is one."""
    answer, entries = page.answer, page.entries
    note = f"then {answer.line}" if isinstance(answer, Refusal) else treated
    if entries is not None:
        return drawing.draw(entries, note)
    if isinstance(answer, Accepted):
        why = "" if answer.entries > MOST_LISTED else ", whose lines are too long"
        return drawing.empty(f"No sketch: the page has {answer.entries} entries{why}")
    return drawing.empty(f"No sketch: too much comes first, {note}")


# The greatest number of pages of a sheet, which has as much to draw as one sketch may have.
MOST_PAGES = 1000
# The width of a picture, the space around it, and the lines below it.
WIDE, SPACE, LINE, FONT = 256, 16, 18, 13
HIGH = WIDE * HEIGHT // WIDTH
MOST_COLUMNS = 6
# With more rows it would be higher than librsvg makes a picture, so there are more columns then.
MOST_ROWS = 120
# The number of characters of a name or an answer below a picture.
MOST_SHOWN = WIDE * 10 // (FONT * 6)
TOO_MUCH = "too much for a sheet"


class Tile(NamedTuple):
    """A page: its name and its answer as they are shown, and its picture, if there is one."""

    name: str
    answer: str
    drawn: Optional[Drawn]


class ContactSheet:
    """Takes pages in their order."""

    def __init__(self) -> None:
        self.tiles: List[str] = []
        self.size, self.weight = AROUND, 0.0
        self.columns = 1

    def prefix(self) -> str:
        """What ids of the next picture begin with, since several may draw the same."""
        return f"s{len(self.tiles)}"

    def add(self, tile: Tile) -> None:
        """Adds a page. Where all would be more to draw than a picture may have, its picture is left out."""
        drawn = None if tile.drawn is None else self._room_for(tile.drawn)
        content = '<title>%s</title>%s' % (escaped(f"{tile.name}: {tile.answer}"), drawn or _without(
            tile.answer if tile.drawn is None else TOO_MUCH))
        above = WIDTH - HEIGHT if tile.drawn and is_tall(tile.drawn.paper) else 0
        box = f"0 {-above} {WIDTH} {HEIGHT + above}"
        markup = (f'<svg width="{WIDE}" height="{HIGH}" viewBox="{box}" role="img">{content}</svg>'
                  + _line(1, "#111111", _end_of(tile.name)) + _line(2, "#555555", tile.answer))
        self.size += len(markup.encode("utf-8")) + 64
        self.tiles.append(markup)

    def _room_for(self, drawn: Drawn) -> Optional[str]:
        paper = drawn.paper
        weight = paper.of_page.weight + paper.of_definitions.weight
        made = picture(paper)
        # (names of all pages that may come have room too)
        if self.size + len(made.encode("utf-8")) > MOST_BYTES // 2 or self.weight + weight > MOST_WEIGHT:
            return None
        self.weight += weight
        return made

    def svg(self) -> str:
        """The sheet."""
        number = len(self.tiles)
        columns = max(1, min(MOST_COLUMNS, math.ceil(math.sqrt(number))), math.ceil(number / MOST_ROWS))
        wide, high = WIDE + SPACE, HIGH + SPACE + 2 * LINE + SPACE // 2
        across, down = columns * wide + SPACE, math.ceil(number / columns) * high + SPACE
        placed = "".join('<g transform="translate(%d %d)">%s</g>' % (
            SPACE + at % columns * wide, SPACE + at // columns * high, tile) for at, tile in enumerate(self.tiles))
        title = "Contact sheet of %d %s" % (number, "page" if number == 1 else "pages")
        return ('<svg xmlns="http://www.w3.org/2000/svg" viewBox="0 0 %d %d" width="%d" height="%d" '
                'font-family="DejaVu Sans Mono,monospace" role="img"><title>%s</title>'
                '<rect width="%d" height="%d" fill="#ffffff"/>%s</svg>\n') % (
            across, down, across, down, title, across, down, placed)


def _without(why: str) -> str:
    """What stands where there is no picture."""
    return ('<rect width="%d" height="%d" fill="#2b3238"/><text x="%d" y="%d" font-size="48" fill="#d5dce2" '
            'text-anchor="middle">%s</text>') % (WIDTH, HEIGHT, WIDTH // 2, HEIGHT // 2, escaped(_cut(why)))


def _line(number: int, colour: str, text: str) -> str:
    """A line of text below a picture."""
    return '<text y="%d" font-size="%d" fill="%s">%s</text>' % (HIGH + number * LINE, FONT, colour, escaped(_cut(text)))


def _end_of(name: str) -> str:
    """A name that is short enough: of a long one the file's own, and as many of the folders before it as there is room
    for.
    """
    folders = name.split("/")
    for number in range(1, len(folders)):
        if len(name) > MOST_SHOWN:
            name = "/".join(["..", *folders[number:]])
    return name if len(name) <= MOST_SHOWN else folders[-1]


def _cut(text: str) -> str:
    """A text that is short enough: of a long one the beginning and the end."""
    if len(text) <= MOST_SHOWN:
        return text
    half = (MOST_SHOWN - 2) // 2
    return f"{text[:half]}..{text[-half:]}"


RSVG_CONVERT = "rsvg-convert"


class NoPng(Exception):
    """There is no PNG, with the reason."""


def find_converter() -> str:
    """The program. Raises NoPng."""
    path, why = on_path(RSVG_CONVERT)
    if path is None:
        raise NoPng(why or messages.NO_RSVG_CONVERT.format(program=RSVG_CONVERT))
    return path


def png_of(svg: bytes, seconds: float) -> bytes:
    """The picture as PNG, made within a number of seconds. Raises NoPng."""
    try:
        # (a picture may have more bytes than libxml takes by itself)
        process = subprocess.run([find_converter(), "--unlimited"], input=svg, stdout=subprocess.PIPE,
                                 stderr=subprocess.PIPE, timeout=seconds, check=False, env=for_child())
    except subprocess.TimeoutExpired:
        raise NoPng(messages.PNG_LATE.format(program=RSVG_CONVERT, seconds=seconds)) from None
    except OSError as error:
        raise NoPng(f"{RSVG_CONVERT}: {error.strerror or error}") from None
    if process.returncode or not process.stdout:
        reason = process.stderr[:300].decode("utf-8", "replace").strip() or os.strerror(5)
        raise NoPng(messages.PNG_FAILED.format(program=RSVG_CONVERT, reason=reason))
    return process.stdout
