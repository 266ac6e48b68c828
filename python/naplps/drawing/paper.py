"""What is drawn on: elements as SVG, with the words in and below them as one document."""
from dataclasses import dataclass
from functools import cached_property
from typing import Callable, Dict, List, NamedTuple, Optional, Set, Tuple

from .colours import BLACK
from .measure import HEIGHT, WIDTH
from .weight import Weight


def escaped(text: str) -> str:
    """Text as it is between elements."""
    return text.replace("&", "&amp;").replace("<", "&lt;").replace(">", "&gt;")


class Element(NamedTuple):
    """An element of SVG: its name, its attributes in their order, the elements in it, and its text."""

    name: str
    attributes: Dict[str, str]
    inside: Tuple["Element", ...] = ()
    text: str = ""

    def markup(self) -> str:
        """It as SVG."""
        attributes = "".join([f' {name}="{value}"' for name, value in self.attributes.items()])
        if not (self.inside or self.text):
            return f"<{self.name}{attributes}/>"
        within = escaped(self.text) + "".join(each.markup() for each in self.inside)
        return f"<{self.name}{attributes}>{within}</{self.name}>"


# The greatest number of bytes of a sketch, and of these what is kept for the parts around the drawing.
MOST_BYTES = 16 << 20
AROUND = 4096
# The greatest number of points, uses included, that a browser draws.
MOST_WEIGHT = 500_000
# The number of bytes of masks that are copied into patterns; beyond that, patterns refer to a mask.
MOST_COPIED = 1 << 20


class Full(Exception):
    """What comes next is more than a picture may have."""


@dataclass
class Cost:
    """Bytes, and points that are drawn."""

    size: int = 0
    weight: float = 0.0


@dataclass(frozen=True)
class Definition:
    """A glyph or a texture mask: its number and its name, its elements, and what they cost where they are drawn."""

    number: int
    name: str
    elements: Tuple[Element, ...]
    size: int
    weight: Weight


class LetterCells(NamedTuple):
    """The entries that letters side by side came with, where the first cell begins, and how wide each is."""

    entries: Tuple[int, ...]
    x: float
    wide: float


class Paper:
    """The elements of the page, or of the glyph or mask that is open."""

    def __init__(self, prefix: Callable[[], str]) -> None:
        """`prefix` makes what its ids begin with, where it has any."""
        self._prefix = prefix
        self.page: List[str] = []
        self.open: Optional[List[Element]] = None
        self.open_size, self.open_weight = 0, Weight()
        self.definitions: List[str] = []
        self.defined: Set[str] = set()
        self.glyphs: Dict[int, Definition] = {}
        self.defined_glyphs = 0
        self.masks: Dict[str, Definition] = {}
        self.defined_masks = 0
        self.copied = 0
        self.notes: Dict[str, None] = {}
        self.of_page, self.of_definitions = Cost(), Cost()
        self.full = False
        self.top = 0.0
        # Where in the page what is a guess begins.
        self.guess_from: Optional[int] = None
        # Which entry is drawn, counted from 0.
        self.entry = 0

    @cached_property
    def prefix(self) -> str:
        """What its ids begin with."""
        return self._prefix()

    @property
    def on_page(self) -> bool:
        """Whether the page is drawn, and not a glyph or a mask."""
        return self.open is None

    def spend(self, size: int, weight: Weight) -> None:
        """Counts what is about to be drawn. Raises Full where it is too much, once: then the picture ends."""
        if self.open is None:
            self._count(self.of_page, size, weight.total())
        else:
            # (what it costs to draw it is counted where that is done)
            self.open_weight = self.open_weight.plus(weight)
            self._count(self.of_definitions, size, weight.points)

    def _count(self, cost: Cost, size: int, weight: float) -> None:
        if self.full:
            return
        cost.size += size
        cost.weight += weight
        page, definitions = self.of_page, self.of_definitions
        if page.size + definitions.size > MOST_BYTES - AROUND or page.weight + definitions.weight > MOST_WEIGHT:
            self.full = True
            raise Full

    def has_room(self, size: int, weight: Weight) -> bool:
        """Whether something of this cost can be drawn, and the picture continues."""
        return (not self.full and self.of_page.size + self.of_definitions.size + size <= MOST_BYTES - AROUND
                and self.of_page.weight + self.of_definitions.weight + weight.total() <= MOST_WEIGHT)

    def require(self, weight: Weight) -> None:
        """Looks whether there is space for something that costs at least this. Raises Full where there isn't."""
        if not self.full and self.of_page.weight + self.of_definitions.weight + weight.points > MOST_WEIGHT:
            self.full = True
            raise Full

    def put(self, element: Element, weight: Weight) -> None:
        """Draws an element over what is there. Raises Full."""
        markup = element.markup()
        size = _size(markup)
        self.spend(size, weight)
        if self.open is None:
            self.keep_on_page(element, markup, None)
        else:
            self._keep_open(element, size)

    def put_counted(self, element: Element, letters: LetterCells) -> None:
        """Draws an element of some letters, which were counted before."""
        markup = element.markup()
        if self.open is None:
            self.keep_on_page(element, markup, letters)
        else:
            self._keep_open(element, _size(markup))

    def _keep_open(self, element: Element, size: int) -> None:
        assert self.open is not None
        self.open.append(element)
        self.open_size += size

    def keep_on_page(self, element: Element, markup: str, letters: Optional[LetterCells]) -> None:
        """Keeps an element of the page. It came with the entry that is drawn, or with those of the letters."""
        self.page.append(markup)

    def begin_guess(self) -> None:
        """What is drawn on the page from here on is a guess."""
        self.guess_from = len(self.page)

    def note(self, text: str) -> None:
        """Keeps a note on the sketch, once."""
        self.notes[text] = None

    def reach(self, y: float) -> None:
        """Keeps how high the page draws, in sides of the unit screen."""
        if self.open is None and y > self.top:
            self.top = y

    def clear(self, colour: str) -> None:
        """Takes away all that is drawn on the page, and fills it with the colour."""
        if self.open is None:
            self.page = []
            self.guess_from = None if self.guess_from is None else 0
            self.of_page = Cost()
            self.top = 0.0
            if colour != BLACK:
                self.page.append('<rect y="%d" width="%d" height="%d" fill="%s"/>' % (
                    HEIGHT - WIDTH, WIDTH, WIDTH, colour))

    def begin(self) -> None:
        """Opens a glyph or a mask."""
        self.open, self.open_size, self.open_weight = [], 0, Weight()

    def end_glyph(self, code: int) -> None:
        """Closes a glyph, which replaces an older one for the characters after it."""
        glyph = self._ended("g", self.defined_glyphs)
        self.defined_glyphs += 1
        self.glyphs[code] = glyph
        self._define_group(glyph)

    def end_mask(self, name: str) -> None:
        """Closes a mask."""
        self.defined_masks += 1
        self.masks[name] = self._ended("m", self.defined_masks)

    def _ended(self, letter: str, number: int) -> Definition:
        elements, self.open = self.open or [], None
        name = f"{self.prefix}{letter}{number}"
        return Definition(number, name, tuple(elements), self.open_size, self.open_weight)

    def glyph(self, code: int) -> Optional[Definition]:
        """The glyph that may be drawn here; none inside a glyph or a mask."""
        glyph = self.glyphs.get(code)
        if glyph is None:
            self.note("a DRCS character without a glyph is drawn as a box")
        elif self.open is not None:
            self.note("a DRCS character inside a glyph or a mask is drawn as a box")
        else:
            return glyph
        return None

    def drawing_of(self, mask: Definition) -> Tuple[Element, ...]:
        """The elements of a mask for a pattern: a copy, or a reference to them where there are many copies already."""
        if self.copied + mask.size <= MOST_COPIED:
            self.copied += mask.size
            return mask.elements
        self._define_group(mask)
        return (Element("use", {"href": f"#{mask.name}"}),)

    def _define_group(self, it: Definition) -> None:
        self.define(it.name, Element("g", {"id": it.name}, it.elements), counted=it.size)

    def define(self, key: str, element: Element, counted: int = 0) -> None:
        """Adds a definition once. `counted` is how much of its size was counted before. Raises Full."""
        if key not in self.defined:
            markup = element.markup()
            self._count(self.of_definitions, _size(markup) - counted, 0.0)
            self.defined.add(key)
            self.keep_definition(element, markup)

    def keep_definition(self, element: Element, markup: str) -> None:
        """Keeps a definition that is used."""
        self.definitions.append(markup)


def _size(markup: str) -> int:
    """How many bytes it has."""
    return len(markup) if markup.isascii() else len(markup.encode("utf-8"))


# The height of a line below the drawing, and the colours of a caption and of what is to be seen.
CAPTION = 28
QUIET, LOUD = "#cccccc", "#ffcc66"
# Stripes that let a guess be seen as one: where it is drawn whole, and what is left of it between them.
STRIPE, BETWEEN, SHARE = 7, 7, "0.3"
GUESS = "a guess"


class Captions(NamedTuple):
    """What a sketch says of itself: its caption, lines below that, and the page in words for who doesn't see it."""

    caption: str
    below: Tuple[str, ...] = ()
    described: str = ""


def document(paper: Paper, words: Captions) -> str:
    """The drawing as SVG, with its words below it. What is a guess is hatched."""
    above = WIDTH - HEIGHT if is_tall(paper) else 0
    lines = [words.caption, *words.below]
    foot = CAPTION * len(lines)
    notes: List[str] = [words.described] if words.described else []
    notes += paper.notes
    if above:
        notes.append("the page draws above the part of the square that screens show")
    described = f"<desc>{escaped('; '.join(notes))}</desc>" if notes else ""
    below = '<rect y="%d" width="%d" height="%d" fill="#333333"/>' % (HEIGHT, WIDTH, foot)
    below += "".join(_line(number, LOUD if number else QUIET, line) for number, line in enumerate(lines))
    return ('<svg xmlns="http://www.w3.org/2000/svg" viewBox="0 %d %d %d" width="%d" height="%d" '
            'font-family="DejaVu Sans Mono,monospace" role="img">'
            "<title>%s</title>%s%s%s</svg>\n") % (
        -above, WIDTH, HEIGHT + foot + above, WIDTH, HEIGHT + foot + above, escaped(words.caption), described,
        picture(paper), below)


def is_tall(paper: Paper) -> bool:
    """Whether the page draws above the part of the unit screen that screens show."""
    return paper.top > HEIGHT / WIDTH + 0.001


def picture(paper: Paper) -> str:
    """The elements of the drawing alone, on black."""
    above = WIDTH - HEIGHT if is_tall(paper) else 0
    defined = "".join(paper.definitions)
    drawn = "".join(paper.page)
    if paper.guess_from is not None:
        defined += _hatching(paper.prefix)
        drawn = "".join(paper.page[:paper.guess_from]) + _hatched(paper)
    definitions = f"<defs>{defined}</defs>" if defined else ""
    return '%s<rect y="%d" width="%d" height="%d" fill="#000000"/>%s' % (
        definitions, -above, WIDTH, HEIGHT + above, drawn)


def _hatching(prefix: str) -> str:
    """A mask of stripes."""
    wide = STRIPE + BETWEEN
    return (f'<pattern id="{prefix}stripes" width="{wide}" height="{wide}" patternUnits="userSpaceOnUse" '
            f'patternTransform="rotate(45)"><rect width="{wide}" height="{wide}" fill="#ffffff" '
            f'fill-opacity="{SHARE}"/><rect width="{STRIPE}" height="{wide}" fill="#ffffff"/></pattern>'
            f'<mask id="{prefix}guess" maskUnits="userSpaceOnUse" x="0" y="{HEIGHT - WIDTH}" width="{WIDTH}" '
            f'height="{WIDTH}"><rect y="{HEIGHT - WIDTH}" width="{WIDTH}" height="{WIDTH}" '
            f'fill="url(#{prefix}stripes)"/></mask>')


def _hatched(paper: Paper) -> str:
    """What is a guess, in stripes."""
    guessed = "".join(paper.page[paper.guess_from or 0:])
    return f'<g mask="url(#{paper.prefix}guess)" role="group" aria-label="{GUESS}">{guessed}</g>'


def _line(number: int, colour: str, text: str) -> str:
    """A line of text below the drawing."""
    return '<text x="8" y="%d" font-size="16" fill="%s">%s</text>' % (
        HEIGHT + number * CAPTION + 20, colour, escaped(text))
