"""The eight-bit form: written in seven bits it does the same, or says why it isn't sure."""
import os
import re
from collections import Counter
from random import Random

import pytest
from hypothesis import given
from hypothesis import strategies as st

from command import TOP
from eight_model import acts
from naplps.answers import Accepted
from naplps.treating.changes import NotSure, edited, undone
from naplps.treating.eight_bit import MOST_LENGTH, edits
from old_files import box, in_eight_bits
from pictures import picture

PICTURES = (b"\xa6\xd2\xc0\xc0", b"\xa4\xc9", b"\xa9\xc9", b"\xa7\xc9\xc0\xc0\xc9", b"\xa1\xc8", b"\xbe\xc4",
            b"\xbc\xd2", b"\xa0\xc0\xd0", b"\xae\xc9\xc0\xc0")
TEXTS = (b"A", b"B ", b"12", b"\x1d\x21", b"\x1d\x22", b"\x19\x41", b"\x19\x22", b"\x1c\x41\x42", b"\x86\x41",
         b"\x1b\x46\x42")
CONTROLS = (b"\x8a", b"\x8c", b"\x99", b"\x9a", b"\x88", b"\x95", b"\x07", b"\x0c", b"\x08", b"\r\n", b"\0",
            b"\x1b\x5b")
SETS = (b"\x0e", b"\x0f", b"\x1b\x6e", b"\x1b\x7d", b"\x1b\x7e", b"\x1b\x2b\x7a", b"\x1b\x28\x57", b"\x1b\x29\x20\x7d",
        b"\x83\x41\xa6\xc9\x85", b"\x1b\x2a\x7a")
IN_BODIES = st.one_of(st.sampled_from(PICTURES + TEXTS + CONTROLS), st.binary(min_size=1, max_size=2))


@st.composite
def macros(draw):
    """A definition of a macro."""
    name, body = draw(st.sampled_from((b"!", b'"', b"A"))), b"".join(draw(st.lists(IN_BODIES, max_size=4)))
    return draw(st.sampled_from((b"\x80", b"\x81", b"\x1b\x40"))) + name + body + draw(st.sampled_from((
        b"\x85", b"\x85", b"\x1b\x45", b"\x83A", b"")))


PAGES = st.lists(st.one_of(st.sampled_from(PICTURES), st.sampled_from(TEXTS), st.sampled_from(CONTROLS), IN_BODIES,
                           macros(), st.sampled_from(SETS)), max_size=14).map(b"".join)
WITH_CALLS = st.tuples(macros(), PAGES).map(lambda parts: b"\x1b\x2b\x7a" + parts[0] + parts[1])


@given(st.one_of(PAGES, WITH_CALLS))
def test_it_does_what_the_eight_bit_form_does(data):
    try:
        changes = edits(data)
    except NotSure:
        return
    made = edited(data, changes)
    wanted, found = acts(data, eight=True), acts(made, eight=False)
    if ("stop", "steps") not in wanted + found:
        # (what stops the reading may have another name)
        ends = bool(wanted) and wanted[-1][0] == "stop"
        assert (found[:-1] == wanted[:-1] and found[-1][0] == "stop") if ends else found == wanted
    assert made.isascii()
    told = [(each.offset, data[each.offset:each.offset + each.length], each.put) for each in changes]
    assert undone(made, told) == data


def test_pictures_in_eight_bits_have_their_list(program):
    chance = Random(8)
    for number in range(400):
        page = picture(chance, number)
        eight = in_eight_bits(page)
        assert not eight.isascii()
        answer, found = program.ask("list", page), program.ask("list", edited(eight, edits(eight)))
        assert isinstance(answer, Accepted) and found == answer


FIRST = b"\xa6\xd2\xc0\xc0"


@pytest.mark.parametrize("data, why", [
    (b"caf\xe9 20\xb0", "no picture code of the right half has an operand"),
    (FIRST + b"A" * MOST_LENGTH, "it is longer than 262144 bytes"),
    (FIRST + b"\x0e\xa6\x52\x40\x40", "the operands of a picture code go over into the other half at 6"),
    (b"\x1b\x28\x57" + FIRST + b"\x40", "the operands of a picture code go over into the other half at 7"),
    (FIRST + b"\x80A\xa6\xd2\x85\x1b\x2b\x7a\x1d\x41\xc0", "operands stand behind the call of a macro at 14"),
    (FIRST + b"\x80A\xa6\xd2\x85\x0e", "macros stand beside locking shifts at 9"),
    (FIRST + b"\x1b\x7d\x80A", "macros stand beside locking shifts at 8"),
    (FIRST + b"\x80A\x1b\x28\x42\x85", "a set is designated in the body of a macro at 6"),
    (FIRST + b"\x80A\x1c\x41\x85", "a code in the body of a macro isn't whole at 8"),
    (FIRST + b"\x80A\x1b\x85", "an escape sequence isn't whole at 6"),
    (FIRST + b"\x1c\xc1\xc2", "an argument has the eighth bit at 5"),
    (FIRST + b"\x1d\xc1", "an argument has the eighth bit at 5"),
    (FIRST + b"\x1b\xc1", "an escape sequence isn't whole at 4")])
def test_what_isnt_sure_is_named(data, why):
    with pytest.raises(NotSure) as error:
        edits(data)
    assert str(error.value) == why


@pytest.mark.parametrize("data, wanted", [
    (FIRST, b"\x0e\x26\x52\x40\x40"), (FIRST + b"A" + FIRST, b"\x0e\x26\x52\x40\x40\x0fA\x0e\x26\x52\x40\x40"),
    (FIRST + b"\x8aA", b"\x0e\x26\x52\x40\x40\x1b\x4a\x0fA"),
    (FIRST + b"\x0e\x26\x52", b"\x0e\x26\x52\x40\x40\x0e\x26\x52"),
    (FIRST + b"\x1b\x7d\xc1", b"\x0e\x26\x52\x40\x40\x1b\x6e\x41"),
    (FIRST + b"\x1b\x2b\x7a\x80A\xa6\xd2B\x85\x1d\x41B",
     b"\x0e\x26\x52\x40\x40\x1b\x2b\x7a\x1b\x40A\x0e\x26\x52\x0fB\x1b\x45\x1d\x41\x0fB"),
    (FIRST + b"\x1b\x22\x46\x1f\x41\x42", b"\x0e\x26\x52\x40\x40\x1b\x22\x46\x1f\x41\x42")])
def test_what_is_written(data, wanted):
    assert edited(data, edits(data)) == wanted


def drawn(chance):
    """A page of the eight-bit form, of the same parts as above, with up to two macros."""
    some = [chance.choice(chance.choice((PICTURES, PICTURES, TEXTS, CONTROLS, SETS)))
            for _ in range(chance.randrange(4, 15))]
    for _ in range(chance.choice((0, 0, 0, 1, 2))):
        body = b"".join(chance.choice(chance.choice((PICTURES, TEXTS, CONTROLS))) for _ in range(chance.randrange(5)))
        some.insert(chance.randrange(len(some)), b"\x80!" + body + b"\x85")
    return b"".join(some)


def test_the_figures_of_the_decisions(program):
    pages = {each.page or each.data for each in box() if each.sort == "picture" or each.page}
    alike = same = 0
    for page in pages:
        made = edited(in_eight_bits(page), edits(in_eight_bits(page)))
        answers = [program.ask("canon", each) for each in (page, made)]
        alike += made == page
        same += isinstance(answers[0], Accepted) and answers[0] == answers[1]
    chance, reasons, right = Random(1983), Counter(), 0
    for _ in range(3000):
        data = drawn(chance)
        try:
            made = edited(data, edits(data))
        except NotSure as error:
            reasons[str(error).split(" at ")[0]] += 1
            continue
        right += acts(made, eight=False) == acts(data, eight=True)
    with open(os.path.join(TOP, "docs", "DECISIONS.md"), encoding="utf-8") as document:
        section = document.read().split("### Two grades of repairs\n")[1].split("\n## ")[0]
    told = {number.replace(",", "") for number in re.findall(r"[0-9][0-9,]*", section)}
    assert {str(number) for number in (len(pages), alike, right, sum(reasons.values()))} <= told and same == len(pages)
    assert right + sum(reasons.values()) == 3000
    for reason, number in reasons.items():
        assert f"| {reason} | {number:,} |" in section, (reason, number)
