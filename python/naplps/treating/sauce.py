"""The SAUCE record at the end of a file: where it is, and what it says."""
from dataclasses import dataclass
from typing import Dict, Optional, Tuple

from ..names import shown

RECORD, LINE = 128, 64
MARK, COMMENTS = b"SAUCE00", b"COMNT"
# The fields that are told, by their offsets and lengths.
FIELDS = {"title": (7, 35), "author": (42, 20), "group": (62, 20), "date": (82, 8)}
NUMBER_OF_LINES = 104


@dataclass(frozen=True)
class Sauce:
    """How many bytes at the end the record has, with its comments and the 1A before it; and what its fields say.

    `texts` has the bytes of the fields and of the comments.
    """

    length: int
    fields: Dict[str, str]
    texts: Tuple[bytes, ...] = ()


def find_sauce(data: bytes) -> Optional[Sauce]:
    """The record at the end of a file, if there is one."""
    record = data[-RECORD:]
    if len(record) < RECORD or not record.startswith(MARK):
        return None
    length = RECORD
    texts = tuple(record[at:at + size] for at, size in FIELDS.values())
    lines = record[NUMBER_OF_LINES]
    comments = length + len(COMMENTS) + LINE * lines
    if lines and len(data) >= comments and data.startswith(COMMENTS, len(data) - comments):
        length = comments
        texts += (data[-comments + len(COMMENTS):-RECORD],)
    if data[-length - 1:-length] == b"\x1a":
        length += 1
    fields = {name: _field_text(record[at:at + size]) for name, (at, size) in FIELDS.items()}
    return Sauce(length, {name: text for name, text in fields.items() if text}, texts)


def _field_text(field: bytes) -> str:
    """What a field says, on one line."""
    return shown(field.split(b"\0")[0].rstrip(b" ").decode("cp437"))
