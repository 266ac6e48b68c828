"""The cursor of docs/RASTER.md, from its words: which cells a list paints. It shares nothing with naplps.dots.

It knows cells that are painted whole: blanks in reverse, and blocks of a pair of one ink.
"""
from slow_raster import E, cell_dots

S = 256 * E
SIZES = {"small": (S // 80, 5 * S // 128), "medium": (S // 32, 3 * S // 64), "normal": (S // 40, 5 * S // 128),
         "tall": (S // 40, 5 * S // 64), "double": (S // 20, 5 * S // 64)}
SCREEN = (0, 0, S, 200 * E)


class Text:
    """What an entry's text says: w, h, W and H, and the rest."""

    def __init__(self, look):
        self.w, self.h = SIZES[look.size] if isinstance(look.size, str) else (60 * side for side in look.size)
        bits = format(look.first, "06b")
        self.spacing, self.path, self.rotation = (int(bits[at:at + 2], 2) for at in (0, 2, 4))
        factor = {0: 4, 1: 5, 2: 6, 3: 4}[self.spacing]
        self.W, self.H = self.w * factor // 4, self.h * factor // 4
        self.wrap, self.scroll = look.wrap, look.scroll


class SlowCursor:
    """The place of the next cell, and the dots of those that were painted, with their inks."""

    def __init__(self):
        self.x = self.y = 0
        self.field, self.goes_home, self.leaves_out = SCREEN, True, False
        self.inks = {}

    def go_home(self, text):
        """Goes to the upper left corner of the field."""
        left, _, _, top = self.field
        self.x, self.y, self.leaves_out = left, top - abs(text.h), False

    def take(self, pen, text):
        """Goes where the pen of an entry is."""
        if isinstance(pen, tuple):
            self.x, self.y, self.leaves_out = 60 * pen[0], 60 * pen[1], False
        elif self.goes_home:
            self.go_home(text)
        self.goes_home = False

    def fits(self, width):
        """Whether a cell of this width ends within the field."""
        return self.x + width <= self.field[2] + E

    def next_line(self, text, width):
        """Goes to the next line where a cell doesn't fit."""
        if text.path == 0 and self.x > self.field[0] and not self.fits(width):
            self.x = self.field[0]
            self.go_down(text, abs(text.h))

    def go_down(self, text, by):
        """Goes down, and from the lowest line to the top, or out where the field scrolls."""
        _, low, _, top = self.field
        was = self.y
        self.y -= by
        if was >= low - E > self.y:
            self.leaves_out = text.scroll
            if not text.scroll:
                self.y = top - abs(text.h)

    def paint(self, code, text, ink, width):
        """Paints a character, and goes on by its width."""
        if text.wrap and code == 0x20 and text.path == 0 and not self.fits(text.w):
            return
        self.next_line(text, width)
        if self.leaves_out:
            return
        for dot in cell_dots((self.x, self.y, text.w, text.h, text.rotation)):
            self.inks[dot] = ink
        columns = 3 if code == 0x20 else 6
        across = (columns + 1) * text.w // 6 if text.spacing == 3 else text.W
        dx, dy = ((across, 0), (-across, 0), (0, text.H), (0, -text.H))[text.path]
        self.x, self.y = self.x + dx, self.y + dy

    def move(self, move, text):
        """Moves as an entry says."""
        left, low, _, top = self.field
        if move.move == "APF":
            self.x += text.W
            self.next_line(text, text.w)
        elif move.move == "APB":
            self.x -= text.W
        elif move.move == "APD":
            self.go_down(text, text.h)
        elif move.move == "APU":
            self.y += text.h
            self.leaves_out = self.leaves_out and self.y < low - E
        elif move.move == "APR":
            self.x = left
        elif move.move == "APH":
            self.go_home(text)
        else:
            r, c = move.bytes
            self.x, self.y, self.leaves_out = left + (c - 32) * text.w, top - (r - 31) * text.h, False

    def set_field(self, corners):
        """Takes another field."""
        (a, b), (c, d) = corners
        self.field = tuple(60 * side for side in (min(a, c), min(b, d), max(a, c), max(b, d)))
        self.goes_home = True


def is_of_word(entry):
    """Whether an entry is a letter of a word that wraps."""
    return entry.kind == "CHAR" and entry.text.wrap and entry.code != 0x20


def word_width(entries):
    """The width of the word with which these entries begin."""
    start = end = 0
    for number, entry in enumerate(entries):
        is_next = is_of_word(entry) and Text(entry.text).path == 0 and (number == 0 or entry.pen == "after")
        if not is_next or end > S:
            break
        text = Text(entry.text)
        end = start + text.w
        start += 7 * text.w // 6 if text.spacing == 3 else text.W
    return end


def width_of(entries, number, field, in_word):
    """The width that has to fit where a character begins: its cell's, or that of its word."""
    entry = entries[number]
    width = Text(entry.text).w
    if not is_of_word(entry) or in_word and entry.pen == "after":
        return width
    word = max(width, word_width(entries[number:]))
    return width if word > field[2] - field[0] + E else word


def repeat(cursor, code, text, ink):
    """What TO-EOL does; how often it writes."""
    cursor.next_line(text, text.w)
    count = 0
    while count < 1000 and text.w > 0 and text.path == 0 and cursor.fits(text.w):
        cursor.paint(code, text, ink, text.w)
        count += 1
    return count


def paint(entries):
    """The dots that a list of characters, moves, TO-EOL and FIELD paints, with their inks."""
    cursor, in_word = SlowCursor(), False
    for number, entry in enumerate(entries):
        if entry.kind == "FIELD":
            cursor.set_field(entry.corners)
            in_word = False
            continue
        text, ink = Text(entry.text), entry.colour.parts[0]
        cursor.take(entry.pen, text)
        if entry.kind == "CHAR":
            cursor.paint(entry.code, text, ink, width_of(entries, number, cursor.field, in_word))
            in_word = is_of_word(entry)
        elif entry.kind == "MOVE":
            cursor.move(entry, text)
            in_word = False
        else:
            code = entries[number - 1].code
            in_word = repeat(cursor, code, text, ink) > 0 and text.wrap and code != 0x20
    return cursor.inks
