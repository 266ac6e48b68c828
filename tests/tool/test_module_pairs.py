"""What a reader answers to all pairs of bytes, alone and after SO, by another reading of the profile."""
import collections

import pytest

import naplps as nap

pytestmark = pytest.mark.usefixtures("library")
ACCEPTED = ("accepted", None)
# The name and the place of each refusal; the number of its pairs, of the entries before it, and the sum of the pairs.
ALONE = {
    ACCEPTED: (14766, 25272, 248018022), ("EighthBit", 0): (32768, 0, 1610596352),
    ("EighthBit", 1): (16000, 13312, 266748096), ("BadEscape", 1): (86, 0, 599447), ("ShiftAlone", 1): (64, 0, 443360),
    ("BadArgument", 1): (32, 0, 229872), ("LeftOut CAN", 0): (256, 0, 1605504), ("LeftOut NSR", 0): (256, 0, 2064256),
    ("LeftOut SDC", 0): (256, 0, 1736576), ("LeftOut CAN", 1): (121, 104, 2035032), ("LeftOut DEFT", 1): (1, 0, 6978),
    ("LeftOut EDC1", 1): (1, 0, 6993), ("LeftOut EDC2", 1): (1, 0, 6994), ("LeftOut EDC3", 1): (1, 0, 6995),
    ("LeftOut EDC4", 1): (1, 0, 6996), ("LeftOut INCREMENTAL-LINE", 1): (1, 0, 3642),
    ("LeftOut INCREMENTAL-POINT", 1): (1, 0, 3641), ("LeftOut INCREMENTAL-POLY", 1): (1, 0, 3643),
    ("LeftOut NSR", 1): (121, 104, 2035879), ("LeftOut SDC", 1): (121, 104, 2035274),
    ("LeftOut UNPROTECT", 1): (1, 0, 7007), ("Missing", 1): (22, 0, 79851), ("NothingToRepeat", 1): (1, 0, 6983),
    ("Stray", 1): (64, 0, 235488), ("Cut", 2): (593, 416, 8927999),
}
AFTER_SO = {
    ACCEPTED: (2015, 1362, 15567246), ("EighthBit", 1): (32768, 0, 1610596352),
    ("EighthBit", 2): (4608, 1408, 25720576), ("BadEscape", 2): (86, 0, 599447), ("ShiftAlone", 2): (64, 0, 443360),
    ("BadArgument", 2): (32, 0, 229872), ("LeftOut CAN", 1): (256, 0, 1605504),
    ("LeftOut INCREMENTAL-LINE", 1): (256, 0, 3833728), ("LeftOut INCREMENTAL-POINT", 1): (256, 0, 3768192),
    ("LeftOut INCREMENTAL-POLY", 1): (256, 0, 3899264), ("LeftOut NSR", 1): (256, 0, 2064256),
    ("LeftOut SDC", 1): (256, 0, 1736576), ("LeftOut CAN", 2): (32, 11, 166912), ("LeftOut DEFT", 2): (1, 0, 6978),
    ("LeftOut EDC1", 2): (1, 0, 6993), ("LeftOut EDC2", 2): (1, 0, 6994), ("LeftOut EDC3", 2): (1, 0, 6995),
    ("LeftOut EDC4", 2): (1, 0, 6996), ("LeftOut INCREMENTAL-LINE", 2): (31, 11, 164102),
    ("LeftOut INCREMENTAL-POINT", 2): (31, 11, 164071), ("LeftOut INCREMENTAL-POLY", 2): (31, 11, 164133),
    ("LeftOut NSR", 2): (32, 11, 167136), ("LeftOut SDC", 2): (32, 11, 166976), ("LeftOut UNPROTECT", 2): (1, 0, 7007),
    ("ThreeD", 1): (32, 0, 273904), ("Missing", 1): (4736, 0, 56288960), ("Missing", 2): (682, 242, 3601781),
    ("Outside", 1): (624, 0, 7165800), ("NothingToRepeat", 2): (1, 0, 6983), ("Stray", 1): (16384, 0, 402644992),
    ("Stray", 2): (1536, 512, 4914432), ("Cut", 3): (237, 44, 1454362),
}


def ending(refused):
    """The name and the place of a refusal, or ACCEPTED."""
    return ACCEPTED if refused is None else (refused.name, refused.place)


def fed(pieces):
    """How a page in pieces ends, and the number of its entries, or None if it is refused; a refusal stays."""
    checker = nap.Checker()
    try:
        for piece in pieces:
            checker.feed(piece)
    except nap.Refused as refused:
        with pytest.raises(nap.Refused) as again:
            checker.feed(b"\x00")
        assert str(again.value) == str(refused)
    try:
        return ACCEPTED, checker.finish()
    except nap.Refused as refused:
        return ending(refused), None


def tallies(before):
    """The number of pairs, of entries and the sum of the pairs for each ending of the pages of `before` and a pair."""
    found = collections.defaultdict(lambda: (0, 0, 0))
    for pair in range(1 << 16):
        page = before + pair.to_bytes(2, "big")
        entries, refused = nap.places(page)
        end = ending(refused)
        answer = end, None if refused else len(entries)
        for cut in range(1, len(page)):
            assert fed((page[:cut], page[cut:])) == answer, page
        times, count, total = found[end]
        found[end] = times + 1, count + len(entries), total + pair
    return dict(found)


@pytest.mark.parametrize("before, wanted", [(b"", ALONE), (b"\x0E", AFTER_SO)], ids=["alone", "after SO"])
def test_pairs_of_bytes(before, wanted):
    assert tallies(before) == wanted
