"""Pages and lists made by chance, for properties."""
from hypothesis import strategies as st

from naplps.entry import ONE
from stream_writer import SIZES, StreamWriter

UNIT = st.floats(0, 0.999)
COORDINATE = st.integers(0, ONE - 1)
POINTS = st.tuples(COORDINATE, COORDINATE)


MOVES = (0x0D, 0x0A, 0x08, 0x09, 0x0B, 0x1E)


def _repeat(page, places):
    """REPEAT TO EOL after a character, and else CS."""
    if page.bytes[-1:] == b'"':
        page.escape(0x47)
    else:
        page.raw(0x0C)


# What a page may have, each from two to six places, whose number chooses where there is a choice.
PARTS = (
    lambda page, places: page.line(*places),
    lambda page, places: page.polygon(places, filled=len(places) % 2 == 0),
    lambda page, places: page.arc(places, filled=len(places) % 2 == 1),
    lambda page, places: page.at(*places[0], 'A b<&>"', list(SIZES)[len(places) % 5]),
    lambda page, places: page.code(0x26, b"".join(page.place(*each) for each in places)),
    lambda page, places: page.texture(len(places) % 4, len(places) % 8, edge=True),
    lambda page, places: page.code(0x22, bytes((0x40 + len(places) * 7 % 64, 0x40)) + page.place(*places[0])),
    lambda page, places: page.mosaic([0x20 + int(x * 90) for x, _ in places]),
    lambda page, places: page.select(len(places)).rgb(*places[0], 0.5),
    lambda page, places: page.raw(*[MOVES[int(x * 6)] for x, _ in places]),
    lambda page, places: page.accent("acute", "e").sign(0x42),
    _repeat)


@st.composite
def pages(draw):
    """A page of shapes, text and controls, which the program accepts."""
    page = StreamWriter(draw(st.integers(1, 8)))
    page.domain((draw(UNIT) / 8, draw(UNIT) / 8))
    some = st.tuples(st.sampled_from(PARTS), st.lists(st.tuples(UNIT, UNIT), min_size=2, max_size=6))
    top = 1 - 2.0 ** (1 - 3 * page.words)
    for put, places in draw(st.lists(some, max_size=12)):
        put(page, [(min(x, top), min(y, top)) for x, y in places])
    return page.made()
