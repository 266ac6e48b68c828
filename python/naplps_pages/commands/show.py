"""The command show: pages as pictures, as they came down the line, as text or in words."""
from __future__ import annotations

from typing import TYPE_CHECKING, List, Optional

from naplps.names import shown

from . import (
    ALONE, BUDGET, JSON_ALONE, NOTHING_OVERWRITTEN, OF_PAGE, OF_STORE, OUTPUT, PAGES_OR_STORE, PAGE_GROUP, PREVIOUS,
    TIMEOUT, Command, Given, Option, Part, number, on_pages, require_one_standard_input,
)

if TYPE_CHECKING:
    from naplps.client import Client
    from ..listing import Earlier
    from ..page_session import Session

SVG, PNG, APNG, HTML, TEXT, WORDS = FORMATS = ("svg", "png", "apng", "html", "text", "words")
DOTS, PICTURES, WRITTEN = (PNG, APNG), (SVG, PNG, APNG), (TEXT, WORDS)
# By the ending of what is made; and those of one picture of several pages.
ENDINGS = {".svg": SVG, ".png": PNG, ".apng": APNG, ".html": HTML, ".htm": HTML, ".txt": TEXT}
OF_SHEETS = (".svg", ".png")
MOST_SCALE, MOST_BAUD, USUAL_BAUD = 8, 1_000_000, 1200
OUT = OUTPUT._replace(
    help="the file to write, or - for standard output. For several pages or a STORE, a folder; or one picture of them "
    "all, if it ends in .svg or .png")
FORMAT = Option(
    "--format", "what to make: svg, a drawing; png, the 256 x 200 dots of a terminal; apng, the same as the page comes "
    "in over a line; html, a file that plays the page in a browser; text, its text; words, a description. The "
    "default depends on the ending of OUT; otherwise it is svg", "FORMAT", str, choices=FORMATS)
GUESS = Option("--guess", "for svg: of a refused page, also draw what may follow the refusal, hatched as a guess",
               default=False)
SCALE = Option("--scale", f"the width and height of a dot in pixels, 1 to {MOST_SCALE}, for png and apng; the default "
               "is 1", "N", number(1, MOST_SCALE), default=1)
BAUD = Option("--baud", f"the speed of the line in bits per second, for apng; the default is {USUAL_BAUD}", "N",
              number(1, MOST_BAUD), default=USUAL_BAUD)
OF_TEXT = OF_STORE % "find WORD STORE` finds words in one"
OF_PLAYER = OF_STORE % "report STORE --serve` plays the pages of one"


def _parts() -> List[Part]:
    pages = PAGES_OR_STORE._replace(help=f"{OF_PAGE}. Or a STORE, for pictures of all files in it")
    return [pages, OUT, FORMAT, GUESS, SCALE, BAUD, JSON_ALONE, PREVIOUS, BUDGET, TIMEOUT]


def _check(given: Given) -> None:
    """Exits where the options don't say what is made, and where."""
    from .. import outputs
    given.format = given.format or ENDINGS.get(outputs.ending(given.output or ""), SVG)
    is_several = outputs.is_several(given)
    if len(given.pages) == 1 and is_several and given.format not in PICTURES:
        return  # (the store tells of this)
    outputs.place(given, is_several, OF_SHEETS if given.format in (SVG, PNG) else ())
    is_sheet = given.is_sheet = is_several and given.output_file is not None
    if given.into is None and is_several and not is_sheet and given.format not in WRITTEN:
        given.parser.error("several pages need -o FOLDER, or -o FILE.svg for one picture of them all")
    if given.json and (given.format not in WRITTEN or given.output is not None):
        given.parser.error("--json is for --format text and words, on standard output")
    if given.guess and not (given.format == SVG or is_sheet):
        given.parser.error("--guess is for --format svg, and for one picture of several pages")
    if given.scale != 1 and (given.format not in DOTS or is_sheet):
        given.parser.error("--scale is for --format png and apng")
    if given.baud != USUAL_BAUD and given.format != APNG:
        given.parser.error("--baud is for --format apng")
    if is_sheet:
        from ..pictures import MOST_PAGES
        if len(given.pages) > MOST_PAGES:
            given.parser.error(f"one picture has {MOST_PAGES} pages at most")
    if given.format not in WRITTEN:
        outputs.require_no_terminal(given, "a page of HTML" if given.format == HTML else "a picture")
    require_one_standard_input(given)


def show(session: Session) -> int:
    """Shows each page in the form that is asked for."""
    if session.format in WRITTEN:
        from ..showing.words import show_words as making
    elif session.format == HTML:
        from ..showing.play import play as making
    elif session.is_sheet:
        from ..showing.sheets import sheet as making
    elif session.format in DOTS:
        from ..showing.dots import dots as making
    else:
        from ..showing.sketches import sketches as making
    return making(session)


def _of_store(given: Given, client: Client, after: Optional[Earlier]) -> int:
    from ..collection.session import ANSWERED, LookSession, on_files
    from ..source import Unread
    if given.format not in PICTURES:
        raise Unread(f"{shown(given.pages[0])}: {OF_TEXT if given.format in WRITTEN else OF_PLAYER}")
    return on_files(given, client, after, show, ANSWERED, LookSession)


COMMAND = Command(
    "draw pages, play them, or print their text or a description", _parts, on_pages(
        show, ALONE, _of_store), "show ferry.nap -o ferry.svg", _check, NOTHING_OVERWRITTEN, PAGE_GROUP, 20)
