"""The JSON of answers."""
import json
from itertools import islice
from typing import Iterable, Iterator

from naplps.answers import Accepted, Answer, Refusal, Unanswered
from naplps.names import Members, as_json

_ENCODER = json.JSONEncoder(ensure_ascii=True, separators=(", ", ": "))
# The number of objects that are written at once.
AT_ONCE = 1000


def dumps(members: Members) -> str:
    """The object on one line, in ASCII."""
    return _ENCODER.encode(members)


def pieces_of(members: Members, name: str, rows: Iterable[Members]) -> Iterator[str]:
    """The object on one line, in pieces: `dumps` of these members and a last one of this name, which has the rows. The
    first AT_ONCE of them are there before the first piece, and no more are held at a time."""
    front, rest = dumps({**members, name: []})[:-len("]}")], iter(rows)
    for some in iter(lambda: [*islice(rest, AT_ONCE)], []):
        yield front + _ENCODER.encode(some)[1:-1]
        front = ", "
    yield ("" if front == ", " else front) + "]}"


def answered(name: str, answer: Answer) -> Members:
    """The members of an answer. All are there in each object, null where there is nothing to say."""
    members: Members = as_json(name)
    members.update(status="no answer", number=None, fault=None, code=None, place=None, entries=None, reason=None)
    if isinstance(answer, Accepted):
        members.update(status="accepted", entries=answer.entries)
    elif isinstance(answer, Refusal):
        members.update(status="refused", number=answer.number, fault=answer.fault, code=answer.code, place=answer.place)
    elif isinstance(answer, Unanswered):
        members.update(reason=answer.reason)
    return members


def unread(name: str, reason: str) -> Members:
    """The members of a page that couldn't be read."""
    members = answered(name, Unanswered(reason))
    members["status"] = "unread"
    return members
