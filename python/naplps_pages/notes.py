"""Notes beside files that are made of pages, which tell where these come from: treated copies, parts of captures, and
carved pages.
"""
import datetime
import hashlib
import json
import os
import stat
from typing import Any, Iterable, List, NamedTuple

from naplps.answers import Accepted, Answer, Refusal
from naplps.names import Members, as_json
from naplps.treating.borders import Piece
from naplps.treating.changes import AROUND, WITHIN, Change
from naplps.treating.treatments import Cure
from naplps.version import VERSION

from . import TOOL, file_kinds
from .new_files import put_inside, require_free
from .page_finder import CarvedPage

NOTE_ENDING = ".json"
NOTE = NOTE_ENDING.encode("ascii")
# How each note begins: repairs and captures tell first where their file comes from.
BEGINS = b'{\n  "source_name": "'
WRITTEN_BY = b'\n  "tool": "%s ' % TOOL.encode("ascii")


def is_note(name: bytes, data: bytes) -> bool:
    """Whether a file of this name and these bytes is such a note."""
    return name.endswith(NOTE) and data.startswith(BEGINS) and WRITTEN_BY in data


WARNING = ("The copy is another page. That it is equal to the original, or draws what was meant there, isn't claimed; "
           "keep the original.")
# A note that is there already is read if it is at most this number of times as long as the tool's own.
MOST_SPACED = 4
GUESS = "The copy is a guess: codes of the page were taken or rewritten whose whole effect isn't certain. "


def treatment_members(source: bytes, cure: Cure) -> Members:
    """What JSON tells of a treated copy of these bytes."""
    return {"treatments": [change_members(*step) for step in cure.treated.steps()],
            "grade": WITHIN if cure.treated.is_guess else AROUND, "entries": cure.entries,
            "source": size_and_hash(source), "copy": size_and_hash(cure.treated.data)}


def change_members(change: Change, data: bytes) -> Members:
    """A change of these bytes; `bytes` are those that were taken away, and `edits` tell each place."""
    taken = change.taken(data)
    return {"treatment": change.treatment, "grade": change.grade, "what": change.what,
            "offset": change.edits[0].offset if change.edits else 0, "length": change.length,
            "bytes": b"".join(taken).hex(), "bits": change.bits, "parity": change.parity or None,
            "edits": [{"offset": edit.offset, "taken": each.hex(), "put": edit.put.hex()}
                      for edit, each in zip(change.edits, taken)], "record": change.record or None}


def warning(cure: Cure) -> str:
    """What a copy claims, and what it doesn't."""
    return GUESS + WARNING if cure.treated.is_guess else WARNING


def paths_with_notes(paths: Iterable[str]) -> List[str]:
    """The paths of files and of their notes."""
    return [each for path in paths for each in (path, path + NOTE_ENDING)]


def path_members(path: str, is_usual: bool = False) -> Members:
    """What a note tells of the path of its file, where that isn't the usual one."""
    return {} if is_usual else {key.replace("name", "path"): value for key, value in as_json(path).items()}


def size_and_hash(data: bytes) -> Members:
    """How a note tells of some bytes."""
    return {"bytes": len(data), "sha256": hashlib.sha256(data).hexdigest()}


def put_treated(path: str, data: bytes, members: Members) -> None:
    """Writes a treated copy, and before it its note. Raises NotWritten."""
    note = path + ".json"
    require_free(path, data)
    if not has_same_note(note, members):
        put_inside(note, note_bytes(members))
    put_inside(path, data)


def _source_name(name: str) -> Members:
    return {"source_" + key: value for key, value in as_json(name).items()}


def treated_note(name: str, answer: Refusal, treatment: Members, budget: int) -> Members:
    """Where a treated copy comes from, by what, and when."""
    members: Members = {**_source_name(name), "refusal": answer.line, **treatment}
    members["tool"] = f"{TOOL} {VERSION}"
    members["budget"] = budget
    members["note"] = GUESS + WARNING if treatment["grade"] == WITHIN else WARNING
    members["time"] = datetime.datetime.now(datetime.timezone.utc).strftime("%Y-%m-%dT%H:%M:%SZ")
    return members


def note_bytes(members: Members) -> bytes:
    """A note as it stands in its file."""
    return (json.dumps(members, indent=2) + "\n").encode("ascii")


def read_note(path: str, most: int) -> Any:
    """What a file of the tool has as JSON. Raises OSError, or ValueError where it is no regular file or too long."""
    number = os.open(path, os.O_RDONLY | os.O_NONBLOCK | os.O_NOFOLLOW | os.O_CLOEXEC)  # (a pipe isn't waited for)
    with open(number, encoding="ascii") as file:
        status = os.fstat(number)
        if not stat.S_ISREG(status.st_mode) or status.st_size > most:
            raise ValueError
        return json.load(file)


def has_same_note(note: str, members: Members) -> bool:
    """Whether there is such a note already, of an earlier time: then that stays, also if it is spaced otherwise."""
    try:
        if not os.path.isfile(note) or os.path.getsize(note) > MOST_SPACED * len(note_bytes(members)):
            return False
        with open(note, encoding="ascii") as file:
            there = json.load(file)
        return bool(there == {**members, "time": there["time"]})
    except (OSError, ValueError, KeyError, TypeError, RecursionError):
        return False


class CutPart(NamedTuple):
    """A part of a capture: its bytes, those before it and after it that are in no part, and the program's answer."""

    piece: Piece
    data: bytes
    before: bytes
    after: bytes
    answer: Answer

    @property
    def is_page(self) -> bool:
        """Whether it is accepted, and a page."""
        return isinstance(self.answer, Accepted) and file_kinds.kind((self.data,), self.answer) == file_kinds.PAGE


def capture_source(name: str, data: bytes, parts: int, program: str) -> Members:
    """What the notes on all parts of a capture tell."""
    return {**_source_name(name), "source": size_and_hash(data), "pages": parts, "program": program,
            "tool": f"{TOOL} {VERSION}"}


def part_path(capture: str, number: int, parts: int) -> str:
    """The path of a part beside the path that is made of its capture's name."""
    stem, ending = os.path.splitext(capture)
    return "%s-%0*d%s" % (stem, max(3, len(str(parts))), number, ending or ".nap")


def part_paths(capture: str, parts: int) -> List[str]:
    """The paths of all parts."""
    return [part_path(capture, number, parts) for number in range(1, parts + 1)]


def put_part(path: str, part: CutPart, note: Members) -> None:
    """Writes a part after its note. Raises NotWritten."""
    require_free(path, part.data)
    put_inside(path + ".json", note_bytes(note))
    put_inside(path, part.data)


def part_note(source: Members, number: int, part: CutPart) -> Members:
    """Where a part comes from, and what stands before it in the capture, or after the last one."""
    return {**source, "page": number, "offset": part.piece.offset, "cut_at": part.piece.cut_at,
            "before": part.before.hex(), "after": part.after.hex(), "copy": size_and_hash(part.data)}


# The digits of an offset in a name.
LEAST_DIGITS = 10


def carve_source(name: str, length: int, sha256: str) -> Members:
    """What the notes on all pages of a source tell: its name, its length and its hash."""
    return {**_source_name(name), "source": {"bytes": length, "sha256": sha256}}


def carved_path(stem: str, offset: int) -> str:
    """The path of the page at an offset, beside the path that is made of its source's name."""
    return "%s-%0*d.nap" % (stem, LEAST_DIGITS, offset)


def carved_before(stem: str, end: int) -> int:
    """How many pages that begin before an offset are there already, each with its note."""
    folder, name = os.path.split(stem)
    try:
        names = set(os.listdir(folder or os.curdir))
    except OSError:
        return 0
    offsets = (each[len(name) + 1:-len(".nap")] for each in names
               if each.startswith(name + "-") and each.endswith(".nap") and each + NOTE_ENDING in names)
    return sum(int(each) < end for each in offsets if len(each) >= LEAST_DIGITS and each.isdigit() and each.isascii())


def carved_note(source: Members, found: CarvedPage, least: int, program: str) -> Members:
    """What the note on a page tells."""
    return {**source, **carved_places(found), "answer": found.answer.line, "least": least, "program": program,
            "tool": f"{TOOL} {VERSION}", "copy": size_and_hash(found.data)}


def carved_places(found: CarvedPage) -> Members:
    """Where the page is, and where it is at least and at most."""
    return {"offset": found.offset, "bytes": len(found.data),
            "at_least": {"offset": found.offset, "bytes": found.least_end - found.offset},
            "at_most": {"offset": found.most_begin, "bytes": found.end - found.most_begin}}
