"""Pages that are carved whole, whatever codes they have and wherever a piece of the source ends."""
import io
from typing import Callable, Dict, List

import pytest

from naplps.answers import Accepted
from naplps.finds import PIECE
from naplps_pages.page_finder import PageFinder
from planted import SEPARATORS
from stream_writer import PDI, StreamWriter

Spell = Callable[[bytes], bytes]
LETTERS = b"EACH PAGE OF THE DISK, WITH ALL THAT IT DRAWS; " * 1400
# A place, one near a corner, a step, and a step back of which the first word alone leads off the screen.
PLACE, CORNER, STEP, BACK = (0.5, 0.25), (0.05, 0.05), (0.125, 0.25), (-0.01, -0.01)
# The opcodes that draw from the pen, by their operands: places or steps.
FROM_PEN = {0x25: "step step", 0x27: "step back", 0x28: "place corner", 0x29: "step back", 0x2C: "step back",
            0x2D: "step", 0x30: "step", 0x31: "step step", 0x34: "step back", 0x35: "step back"}
OTHERS = {0x24: "place corner", 0x26: "corner place", 0x2A: "place corner", 0x2B: "place step", 0x2E: "place step back",
          0x2F: "place step", 0x32: "place step", 0x33: "place step corner step", 0x36: "place step back",
          0x37: "place step back", 0x38: "place step"}


def codes(words: int) -> Dict[str, bytes]:
    """Codes of each kind by their names, with operands of so many words; PDI is in use before each and after it."""
    page = StreamWriter(words, PDI)
    operands = {"place": page.place(*PLACE), "corner": page.place(*CORNER), "step": page.place(*STEP),
                "back": page.place(*BACK)}
    place, corner, step, back = operands.values()

    def of(opcode: int, names: str) -> bytes:
        return bytes((opcode,)) + b"".join(operands[name] for name in names.split())
    shape = of(0x37, "place step back")
    kinds = {"%02X" % opcode: of(opcode, names) for opcode, names in OTHERS.items()}
    kinds.update({"%02X" % opcode: of(0x24, "place") + of(opcode, names) for opcode, names in FROM_PEN.items()})
    kinds.update({
        "off the screen": of(0x24, "corner") + of(0x29, "back"), "20": b"\x20\x40\x40",
        "21": b"\x21%c" % (0x40 | (words - 1) << 2) + corner, "22": b"\x22\x40\x41" + step, "23": b"\x23\x44" + step,
        "3C": b"\x3c" + page.colour(1, 0.5, 0.25), "3D": b"\x3d\x41\x42", "3E": b"\x3e\x44\x48",
        "3F": b"\x3f\x44\x45\x45\x40\x48\x45\x45\x40", "text": b"\x0f" + LETTERS[:12] + b"\x0e",
        "APS": b"\x1c\x41\x42", "SS2": b"\x19\x41", "SS3": b"\x1d\x41", "ESC": b"\x1b\x48\x1b\x49",
        "locking shift": b"\x1b\x6e\x21\x0e", "designation": b"\x1b\x2a\x7a\x1b\x2a\x20\x7c",
        "REPEAT": b"\x0fA\x1b\x46\x48\x0e", "REPEAT TO EOL": b"\x0fA\x1b\x47\x0e",
        "DEF MACRO": b"\x1b\x40A" + shape + b"\x1b\x45", "DEFP MACRO": b"\x1b\x41A" + shape + b"\x1b\x45",
        "DEF DRCS": b"\x1b\x43A" + shape + b"\x1b\x45", "DEF TEXTURE": b"\x1b\x44A" + shape + b"\x1b\x45"})
    for name in b"!a":  # (the words come after a call of a macro that has their opcode)
        kinds["call %c" % name] = b"\x1b\x40%c\x26\x1b\x45\x1b\x2a\x7a\x19%c" % (name, name) + place + b"\x1b\x2a\x7c"
    return kinds


def front(words: int, letters: int) -> bytes:
    """The beginning of a page: a few points, and so many letters."""
    page = StreamWriter(words).clear().domain()
    page.code(0x26, page.place(*PLACE) + page.place(*CORNER) + page.place(*STEP))
    return page.text("").made() + LETTERS[:letters]


def page_with(words: int, code: bytes, spell: Spell, letters: int) -> bytes:
    """A page with a code behind so many letters."""
    return spell(front(words, letters) + b"\x0e" + code + b"\x0f" + LETTERS[:30])


def page_of(words: int, shapes: int, spell: Spell, length: int) -> bytes:
    """A page of this length: lines, so many at most, and letters."""
    page = StreamWriter(words)
    lines = b"\x0e\x28" + page.place(*PLACE) + page.place(*CORNER) * 8
    number = min(shapes, (length - 40) // (9 * 8 + 2)) if length > 40 else 0
    start = front(words, 0) + lines * number + b"\x0f"
    return spell(start + LETTERS[:length - len(spell(start + b"A")) + 1])


def zeros(pages: List[bytes]) -> bytes:
    """Pages with zeros between them."""
    return bytes(512) + b"".join(page + bytes(512) for page in pages)


def capture(pages: List[bytes]) -> bytes:
    """Pages as they were sent one after another, with separators of all kinds between them."""
    return b"".join(page + SEPARATORS[number % len(SEPARATORS)] for number, page in enumerate(pages))


@pytest.fixture(params=["as sent", "canonical"])
def spelling(request, program):
    """How many words operands have, and what spells a page."""
    def canonical(page: bytes) -> bytes:
        answer = program.ask("canon", page)
        assert isinstance(answer, Accepted), page
        return answer.body
    return (3, bytes) if request.param == "as sent" else (8, canonical)


def assert_whole(program, pages, image):
    """Each of the pages is accepted, and found as it is."""
    assert all(isinstance(program.ask("check", page), Accepted) for page in pages)
    finds = [find.data for find in PageFinder(program).find(io.BytesIO(image(pages)).read)]
    assert len([page for page in pages if page not in finds]) == 0, "are cut short or lost, of %d" % len(pages)
    assert finds == pages


@pytest.mark.parametrize("image", [zeros, capture])
@pytest.mark.parametrize("letters", [0, 300, 5000])
def test_a_page_with_any_code_is_whole(program, spelling, letters, image):
    words, spell = spelling
    assert_whole(program, [page_with(words, code, spell, 1 + letters) for code in codes(words).values()], image)


@pytest.mark.parametrize("image", [zeros, capture])
@pytest.mark.parametrize("shapes", [0, 1 << 20], ids=["text", "lines"])
def test_a_page_of_any_length_is_whole(program, spelling, shapes, image):
    words, spell = spelling
    lengths = [48, 100, 255, 256, 257, 1024, 8191, 8192, 8193, 16384, 30_000, 60_000]
    pages = [page_of(words, shapes, spell, length) for length in lengths]
    if spell is bytes:
        pages.append(page_of(words, 0, spell, 30))
        lengths.append(30)
    assert [len(page) for page in pages] == lengths
    assert_whole(program, pages, image)


@pytest.mark.parametrize("code", ["24", "37", "3F", "SS2", "ESC", "designation", "DEF MACRO", "DEF DRCS"])
def test_a_page_is_whole_wherever_a_piece_of_the_source_ends(program, code):
    page = page_with(3, codes(3)[code], bytes, 9)
    for at in range(len(page) + 1):
        data = b"\xff" * (PIECE - at) + page + b"\xff" * 40
        found, = PageFinder(program).find(io.BytesIO(data).read)
        assert (found.offset, found.data) == (PIECE - at, page)


def test_a_page_with_many_beginnings_before_a_fault_is_found(program):
    page = StreamWriter(3).clear().domain()
    for _ in range(60):
        page.text("TO").line(PLACE, CORNER)
    whole = page.made()
    # (a byte from 40 on after the page is a word of its last opcode, and leads it off the screen)
    data = whole + b"\x37" + page.moves([CORNER, PLACE, CORNER]) + b"\x7f\xff"
    found, = PageFinder(program).find(io.BytesIO(data).read)
    assert found.offset == 0 and found.data.startswith(whole) and isinstance(found.answer, Accepted)
