"""Lists as people might write them: what stands is left out, and the rest is put in other words."""
from random import Random
from typing import List

import naplps as nap
from naplps.writer import PageState

NAMES = {(65535, 65535, 65535): "white", (0, 0, 0): "black", (0, 65535, 0): "red", (65535, 65535, 0): "yellow"}


def fraction(units: int) -> str:
    """A number of units as a fraction of the unit screen."""
    return "%.8f" % (units / nap.ONE)


def position(chance: Random, text: str) -> str:
    """Both numbers as fractions, or both as units, as they have to be; zero may be written either way."""
    parts = [int(part) for part in text.split(",")]
    as_fraction = chance.random() < 0.5
    return ",".join(fraction(part) if as_fraction and (part or chance.random() < 0.5) else str(part) for part in parts)


def colour(chance: Random, text: str) -> str:
    """A colour of a line, as people may write it in a source."""
    kind, _, rest = text.partition(":")
    if kind == "direct" and chance.random() < 0.7:
        green, red, blue = parts = tuple(map(int, rest.split(",")))
        hexadecimal = "#%02x%02x%02x" % (red // 257, green // 257, blue // 257)
        is_short = all(part % 257 == 0 for part in parts)
        return chance.choice([each for each in (NAMES.get(parts), is_short and hexadecimal) if each] or [text])
    if kind == "front" and int(rest) % (1 << 20) == 0 and chance.random() < 0.7:
        return "front:%d/16" % (int(rest) >> 20)
    return text


def field(chance: Random, word: str) -> str:
    """A field in other words."""
    name, _, value = word.partition("=")
    if name == "colour":
        value = colour(chance, value)
    elif name in ("pel", "pen") and "," in value:
        value = position(chance, value)
    elif name in ("texture", "text"):
        value = "/".join(position(chance, part) if "," in part and at == 1 else part
                         for at, part in enumerate(value.split("/")))
    return f"{name}={value}"


class LeftOut:
    """What a line draws with where it has no field: what the last line with that field drew with; the page's pen.

    Of values that no page can have any more the page's own is drawn with.
    """

    def __init__(self) -> None:
        self.page, self.first, self.last = PageState(), PageState().drawing, {}

    def take(self, entry: nap.Entry) -> None:
        """An entry comes."""
        self.page.take(entry)
        self.last.update({name: getattr(entry, name) for name in ("pel", "colour", "texture", "text")
                          if hasattr(entry, name)})

    def __getattr__(self, name: str):
        now = getattr(self.page.drawing, name)
        last = self.last.get(name, getattr(self.first, name))
        if name == "pen":
            return now
        if name == "colour":
            own, reset = ("own-start", "own-reset"), ("reset-2", "reset-3")
            if last.kind in own and last != self.page.drawing.base or last.kind in reset and last != now:
                return now
        if name == "texture" and last.mask is None and now.mask is not None:
            return now
        return last


def line(chance: Random, entry: nap.Entry, stands) -> str:
    """The line of an entry, without what stands, its fields in any order and its blanks in any number."""
    words = str(entry).split(" ")
    fields = [word for word in words if "=" in word]
    operands = [position(chance, word) if "," in word and not isinstance(entry, (nap.Map, nap.Blink)) else word
                for word in words[1:] if "=" not in word]
    kept = [field(chance, word) for word in fields
            if getattr(entry, word.partition("=")[0]) != getattr(stands, word.partition("=")[0])
            or chance.random() < 0.3]
    chance.shuffle(kept)
    for word in kept:
        operands.insert(chance.randrange(len(operands) + 1), word)
    blank = chance.choice((" ", "  ", "\t"))
    return blank.join([words[0], *operands]) + chance.choice(("", "", " ", "  # why"))


def texts(entries) -> List[str]:
    """The words of TEXT in place of characters of the primary set that follow each other; the entries else."""
    rows: List[object] = []
    for entry in entries:
        joins = rows and isinstance(rows[-1], list) and entry.__class__ is nap.Char and entry.set == "primary" \
            and entry.code < 0x7F and entry.pen == "after" \
            and (entry.colour, entry.text) == (rows[-1][0].colour, rows[-1][0].text)
        if joins:
            rows[-1].append(entry)
        elif isinstance(entry, nap.Char) and entry.set == "primary" and entry.code < 0x7F:
            rows.append([entry])
        else:
            rows.append(entry)
    return rows


def source(chance: Random, entries) -> str:
    """The list as people might write it."""
    state, lines = LeftOut(), []
    for row in texts(entries):
        if chance.random() < 0.1:
            lines.append(chance.choice(("", "# a comment", "   ", "#")))
        first = row[0] if isinstance(row, list) else row
        written = line(chance, first, state)
        if isinstance(row, list):
            letters = "".join(chr(each.code) for each in row).replace("\\", "\\\\").replace('"', '\\"')
            fields = [word for word in written.split() if "=" in word]
            written = " ".join(["TEXT", *fields, f'"{letters}"'])
        lines.append(written)
        for each in row if isinstance(row, list) else [row]:
            state.take(each)
    end = chance.choice(("\n", "\r\n"))
    return end.join(lines) + chance.choice(("", end))
