"""Lines as docs/PROFILE.md has them: that of an entry of the module naplps, and one of each kind."""
import naplps as nap
from naplps.kinds import KEYS, KINDS, MORE

SHAPES = {nap.Arc: "ARC", nap.Rect: "RECT", nap.Poly: "POLY"}
# The text of a field of each sort.
SAMPLES = {
    "Addr": "16777215", "Code": "41", "Colour": "own-start", "Cursor": "steady", "Look": "0,0/normal/----", "Mask": "B",
    "Parts": "0,1,65535", "Pel": "0,-1", "Pen": "start", "Point": "1,2", "Set": "mosaic", "Step": "APB",
    "Texture": "0/none", "Times": "0,1,63", "Word": "63"}


def pair(position):
    """Two numbers."""
    return "%d,%d" % position


def joined(numbers):
    """Numbers with commas between them."""
    return ",".join(map(str, numbers))


def colour(it):
    """The field of a colour."""
    return "colour=" + (it.kind + ":" + joined(it.parts) if it.parts else it.kind)


def pen(it):
    """The field of a pen."""
    return "pen=" + (it if isinstance(it, str) else pair(it))


def ink(it):
    """The fields of a shape."""
    mask = "none" if it.texture.mask is None else pair(it.texture.mask)
    return ["pel=" + pair(it.pel), colour(it.colour), "texture=%d/%s" % (it.texture.word, mask)]


def hand(it):
    """The fields of text."""
    look = it.text
    size = look.size if isinstance(look.size, str) else pair(look.size)
    on = zip("ruws", (look.reverse, look.underline, look.wrap, look.scroll))
    flags = "".join(letter if is_on else "-" for letter, is_on in on)
    return [pen(it.pen), colour(it.colour), "text=%d,%d/%s/%s" % (look.first, look.second, size, flags)]


def shape(it):
    """The words of an arc, a rectangle or a polygon."""
    points = it.points if isinstance(it, (nap.Arc, nap.Poly)) else (it.start, it.end)
    return [SHAPES[type(it)] + ("-FILLED" if it.filled else "-OUTLINED"), *map(pair, points), *ink(it)]


WORDS = {
    nap.Point: lambda it: ["POINT", pair(it.at), "pel=" + pair(it.pel), colour(it.colour)],
    nap.Line: lambda it: ["LINE", pair(it.start), pair(it.end), *ink(it)],
    nap.Arc: shape, nap.Rect: shape, nap.Poly: shape,
    nap.Char: lambda it: ["CHAR", it.set, "%02x" % it.code, *hand(it)],
    nap.TextMove: lambda it: ["MOVE", it.move, *("%02x" % byte for byte in it.bytes), *hand(it)],
    nap.ToEol: lambda it: ["TO-EOL", *hand(it)],
    nap.Map: lambda it: ["MAP", str(it.address), joined(it.value)],
    nap.Blink: lambda it: ["BLINK", str(it.address), joined((it.on, it.off, it.delay)), colour(it.colour)],
    nap.BlinkEnd: lambda it: ["BLINK-END", colour(it.colour)],
    nap.BlinkMark: lambda it: ["BLINK-START" if it.on else "BLINK-STOP", colour(it.colour)],
    nap.Wait: lambda it: ["WAIT", str(it.tenths)], nap.Bell: lambda it: ["BELL"],
    nap.Cursor: lambda it: ["CURSOR", it.state],
    nap.Field: lambda it: ["FIELD", *(["whole"] if it.corners is None else map(pair, it.corners)), pen(it.pen)],
    nap.Reset: lambda it: ["RESET", str(it.first), str(it.second), pen(it.pen)],
    nap.Clear: lambda it: ["CLEAR", pen(it.pen)],
    nap.GlyphStart: lambda it: ["GLYPH", "%02x" % it.code], nap.MaskStart: lambda it: ["MASK", it.mask],
    nap.DefEnd: lambda it: ["END"],
}


def line_of(entry):
    """The line, without its end."""
    return " ".join(WORDS[type(entry)](entry))


def fields(row):
    """The fields of a row, as a line has them."""
    sorts = row.replace(MORE, " ").split()
    return [f"{KEYS[sort]}={SAMPLES[sort]}" if sort in KEYS else SAMPLES[sort] for sort in sorts]


def sample_line(words):
    """A line of the kind that begins with these words."""
    return " ".join([words, *fields(KINDS[words])])
