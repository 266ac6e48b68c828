"""The large pages for measurements: what each is, by its family and kind."""
from typing import Iterator, Set, Tuple

import pytest

from dev.measuring.large_pages import BLOCK, FAMILIES, KINDS, page

SIZE = 96 * 1024
# How many bytes come after a control: a name, a count or a mask.
ARGUMENTS = {0x40: 1, 0x41: 1, 0x43: 1, 0x44: 1, 0x46: 1}
OPCODES = set(range(0x20, 0x40)) - {0x39, 0x3A, 0x3B}
# No page needs DEFT MACRO, END is looked for by itself, and EDC and UNPROTECT are left out.
CONTROLS = set(range(0x40, 0x60)) - {0x42, 0x51, 0x52, 0x53, 0x54, 0x5F}
# Controls of texts: all that do something, and single shifts.
SINGLE = {0x07, 0x08, 0x09, 0x0A, 0x0B, 0x0C, 0x0D, 0x19, 0x1C, 0x1D, 0x1E}


def codes_of(text: bytes) -> Iterator[Tuple[str, int]]:
    """The codes of a page, with the bodies of its macros, as a table of sets names them."""
    offset, is_drawing = 0, False
    while offset < len(text):
        byte, further = text[offset], 0
        if byte == 0x1B:
            offset += 1
            further = 1 if 0x28 <= text[offset] <= 0x2F else ARGUMENTS.get(text[offset], 0)
            yield "control", text[offset]
        elif byte in (0x0E, 0x0F):
            is_drawing = byte == 0x0E
        elif byte < 0x20:
            further = {0x19: 1, 0x1D: 1, 0x1C: 2}.get(byte, 0)
            yield "single", byte
        else:
            yield ("opcode" if byte < 0x40 else "word") if is_drawing else "character", byte
        offset += 1 + further


@pytest.mark.parametrize("kind", KINDS)
@pytest.mark.parametrize("family", FAMILIES)
def test_a_page_has_somewhat_fewer_bytes_than_it_may_have_and_the_same_ones_each_time(family: str, kind: str) -> None:
    text = page(family, kind, SIZE)
    assert text == page(family, kind, SIZE)
    assert SIZE * 3 // 4 <= len(text) <= SIZE


def test_pages_of_every_code_have_each_opcode_and_each_control() -> None:
    found: Set[Tuple[str, int]] = set()
    for kind in KINDS:
        found.update(codes_of(page("every", kind, 4 * SIZE)))
    assert {code for sort, code in found if sort == "opcode"} == OPCODES
    assert CONTROLS <= {code for sort, code in found if sort == "control"}
    assert SINGLE <= {code for sort, code in found if sort == "single"}


def test_a_large_page_is_its_block_over_and_over_and_defines_macros_once() -> None:
    one, two = page("every", "macros", BLOCK), page("every", "macros", 2 * BLOCK)
    assert two.startswith(one), "the first block is another"
    assert one.endswith(two[len(one):]), "the second block is another"
    assert two[len(one):] != one, "the second block defines macros again"
