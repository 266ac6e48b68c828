"""The page of promises: the wrong bodies below each, and what is found where they aren't those of the list."""
import re
from pathlib import Path

import pytest

from dev.rattle.promises import LIST, PROMISES, Row, faults_of_promises, promises_in, rows_of_list, with_bodies

ROWS = (
    Row._fields,
    ("low", "half_is_none", "src/lib.rt", "Half::of", "apart", "loop", "Halves", "gives the whole, or nothing"),
    ("low", "half_is_whole", "src/lib.rt", "Half::of", "gate", "gate", "Halves", "gives the whole, or nothing"),
    ("low", "text_is_empty", "src/lib.rt", "Half::text", "apart", "only", "Halves; Texts", "says nothing"),
    ("high", "text_is_empty", "src/lib.rt", "Half::text", "apart", "only", "Texts", "says nothing"),
    ("-", "-", "-", "-", "test", "test", "Halves", "says too much"),
)
LISTED = "".join("\t".join(row) + "\n" for row in ROWS)
PAGE = """\
# What is promised

## Halves: low

What halves are.

### Halves

A half is exact.

*State*: proved. *By*: `Half::of`, which has
two lines.

Refused is a body that

- gives the whole, or nothing (gate: `half_is_whole`; apart: `half_is_none`)
- says nothing (apart: `low/text_is_empty`)
- says too much (test)

### Texts

A text is said.

*State*: tested.

Refused is a body that

- says nothing (apart: `high/text_is_empty`)
- breaks *Halves* too: `low/text_is_empty`

### Nothing

Nothing breaks this.

*State*: proved.

**Not proved.** How fast it is.

## Not promised

- Speed.
"""


def write(root: Path, page: str, listed: str) -> Path:
    """Writes a page and a list into a folder, and gives it back."""
    (root / "docs").mkdir()
    (root / PROMISES).write_text(page, "utf-8")
    (root / LIST).write_text(listed, "utf-8")
    return root


def test_the_page_is_that_of_the_list(tmp_path: Path) -> None:
    root = write(tmp_path, PAGE, LISTED)
    assert list(faults_of_promises(root)) == []
    assert promises_in(PAGE) == ["Halves", "Texts", "Nothing"]
    bare = re.sub(r"Refused is a body that\n\n(?:- .*\n)+\n", "", PAGE)
    assert with_bodies(PAGE, rows_of_list(root)) == with_bodies(bare, rows_of_list(root)) == PAGE


@pytest.mark.parametrize("old, new, fault", [
    ("- says too much (test)\n", "", f"{PROMISES}:18: "),
    ("(gate: `half_is_whole`", "(apart: `half_is_whole`", f"{PROMISES}:16: "),
    ("- says nothing (apart: `low/text_is_empty`)\n", "- says nothing (apart: `half_is_two`)\n", PROMISES),
    ("### Nothing", "### Texts", f"{PROMISES} has the promise Texts 2 times"),
])
def test_a_page_that_is_wrong(tmp_path: Path, old: str, new: str, fault: str) -> None:
    assert PAGE.count(old) == 1
    first, *_ = faults_of_promises(write(tmp_path, PAGE.replace(old, new), LISTED))
    assert first.startswith(fault)


def test_a_list_that_names_another_promise(tmp_path: Path) -> None:
    first, *_ = faults_of_promises(write(tmp_path, PAGE, LISTED.replace("Halves; Texts", "Halves; Words")))
    assert first == f"{LIST}: text_is_empty breaks Words, and {PROMISES} has no such promise"


@pytest.mark.parametrize("old, new", [("\tsays too much", ""), ("\tsays too much", "\t"), ("\tbreaks\tdoes", "")])
def test_a_list_with_a_column_less(tmp_path: Path, old: str, new: str) -> None:
    with pytest.raises(ValueError):
        list(faults_of_promises(write(tmp_path, PAGE, LISTED.replace(old, new))))
