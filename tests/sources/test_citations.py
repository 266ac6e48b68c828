"""No crate names another crate's proofs, except its public laws."""
import re
from typing import Iterator, List, Tuple

import pytest

from dev.layout import TOP
from dev.rattle.paths import names_in

LAWS = "PublicLaws"
CITATION = re.compile(r"(?:.*[.:])?(?P<crate>nap_\w+)(?:\.|::)proofs(?:(?:\.|::)(?P<module>\w+).*)?")


def citations_in(text: str) -> Iterator[Tuple[int, "re.Match[str]"]]:
    """The names of a text that are of the proofs of a crate, each with its line."""
    for place, name in names_in(text):
        found = CITATION.fullmatch(name)
        if found:
            yield text.count("\n", 0, place) + 1, found


def faults_of(crate: str, text: str) -> List[str]:
    """What a source of a crate names, and may not."""
    return [f"{line}: names {found[0]}; from another crate only {LAWS} may be" for line, found in citations_in(text)
            if found["crate"] != crate and found["module"] != LAWS]


def test_crates_name_only_public_laws_of_others() -> None:
    wrong, number = [], 0
    for path in sorted(TOP.glob("crates/*/**/*.*t")):
        place = path.relative_to(TOP)
        if path.suffix in (".rt", ".antt") and "out" not in place.parts:
            text = path.read_text("utf-8")
            number += len([*citations_in(text)])
            wrong += [f"{place}:{fault}" for fault in faults_of(place.parts[1], text)]
    assert not wrong, "\n".join(wrong)
    assert number > 0, "there is no citation"


@pytest.mark.parametrize("text, number", [
    ("use Rattle.nap_low.proofs.PublicLaws.{law, other}", 0),
    ("use Rattle.nap_low.proofs.{PublicLaws.law, PublicLaws.other}", 0),
    ("#[tactic(auto, using(nap_low::proofs::PublicLaws::law))]", 0),
    ("use Rattle.nap_high.proofs.Lemmas.{law}", 0),
    ("use Rattle.nap_low.specs.Names.{proofs}", 0),
    ("#[tactic(auto, using(nap_low::proofs::Lemmas::law))]", 1),
    ("use Rattle.nap_low.proofs.Lemmas.{law, other}", 2),
    ("use Rattle.nap_low.proofs.{PublicLaws.law, Lemmas.other}", 1),
    ("use Rattle.nap_low.{specs.Names.{name}, proofs.Lemmas.{law}}", 1),
    ("use Rattle.{nap_low.proofs.Lemmas.law}", 1),
    ("ghost use Rattle.nap_low.proofs.{\n    PublicLaws.law,\n    Lemmas.other,\n};", 1),
    ("use Rattle.nap_low.proofs as low", 1),
])
def test_what_a_text_cites(text: str, number: int) -> None:
    assert len(faults_of("nap_high", text)) == number
