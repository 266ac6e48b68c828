"""Pages that are almost equal: whose lists differ in words, in colours or in places alone; or of which one is the
beginning of another; and how they are printed. docs/COLLECTIONS.md has the definitions."""
import re
from array import array
from collections import defaultdict
from dataclasses import dataclass, field
from functools import lru_cache
from hashlib import blake2b
from typing import Callable, Dict, Iterable, Iterator, List, NamedTuple, Optional, Sequence, Set, Tuple, Union

from naplps import letters
from naplps.names import Members, as_json, shown

from .console import Output
from .near_keys import KEY, LEAST_ENTRIES, MOST_SAID, PREFIX, NearKeys
from .schema import dumps

WORDS, COLOURS, PLACES = "words", "colours", "places"
# The greatest number of entries, of all lists together, that are compared as beginnings.
MOST_ENTRIES = 20_000_000
# The most words of a page that are named.
MOST_WORDS = 12
_POINT = rb" -?[0-9]+,-?[0-9]+"
_SHAPE = re.compile(rb"^((?:POINT|LINE|ARC-[A-Z]+|RECT-[A-Z]+|POLY-[A-Z]+|FIELD))((?:%s)+)" % _POINT, re.MULTILINE)
_PEN = re.compile(rb" pen=-?[0-9]+,-?[0-9]+")
_COLOUR = re.compile(rb" colour=\S+")
_LEFT_OF_RUN = rb"TEXT pen=\1 \2\n"
_MAP = re.compile(rb"^(MAP [0-9]+) \S+", re.MULTILINE)
_RUN = re.compile(rb"^CHAR (?:primary|supplementary) .. pen=(\S+) (colour=\S+ text=\S+)\n"
                  rb"(?:CHAR (?:primary|supplementary) .. pen=after \2\n)*", re.MULTILINE)
_LETTER = re.compile(rb"^CHAR (p|s)\w+ (..)", re.MULTILINE)


def without_words(listed: bytes) -> bytes:
    """The lines of a list without the characters of its runs of text: of a run its pen, colour and look are left."""
    return _RUN.sub(_LEFT_OF_RUN, listed)


def without_colours(listed: bytes) -> bytes:
    """The lines of a list without the colours of its entries and the values of its map."""
    return _MAP.sub(rb"\1", _COLOUR.sub(b" colour", listed))


def without_places(listed: bytes) -> bytes:
    """The lines of a list without its points and pens; how many points an entry has is left."""
    return _PEN.sub(b" pen=p", _SHAPE.sub(lambda found: found[1] + b" p" * found[2].count(b","), listed))


_LEAVE_OUT: Dict[str, Callable[[bytes], bytes]] = {
    WORDS: without_words, COLOURS: without_colours, PLACES: without_places}


def keys_of(listed: bytes) -> NearKeys:
    """The keys of a list, which is lines with their ends."""
    runs: List[bytes] = []

    def take(run: "re.Match[bytes]") -> bytes:
        runs.append(run[0])
        return b"TEXT pen=%b %b\n" % run.groups()
    words, colours, places = map(_digest, (_RUN.sub(take, listed), without_colours(listed), without_places(listed)))
    said = " ".join(dict.fromkeys(" ".join(map(_run_text, runs)).split()))[:MOST_SAID]
    return NearKeys(words, colours, places, b"".join(_prefixes(listed)), said)


def _run_text(run: bytes) -> str:
    """The text of a run; an accent is on the letter after it."""
    found: List[str] = []
    accent = 0
    for kind, code in _LETTER.findall(run):
        sign, mark = _sign(kind, code)
        if accent and not mark:
            sign = letters.composed(accent, sign)
        found.append("" if mark else sign)
        accent = mark
    return "".join(found) + (letters.ALONE[accent] if accent else "")


@lru_cache(maxsize=None)
def _sign(kind: bytes, code: bytes) -> Tuple[str, int]:
    """A character, by the first letter of its set and its code: its sign, or its code where it is an accent."""
    name, number = {b"p": "primary", b"s": "supplementary"}[kind], int(code, 16)
    if letters.is_accent(name, number):
        return letters.ALONE[number], number
    return letters.letter(name, number), 0


class PageName(NamedTuple):
    """The name of a page; of one of which the treated copy is compared also by what it was treated."""

    name: str
    treated: str = ""


@dataclass
class ListedPage:
    """A list that some pages have: their names, its words, and the hashes of its first entries."""

    names: List[PageName]
    said: str = ""
    prefixes: "array[int]" = field(default_factory=lambda: array("Q"))
    # (the hash of its canonical stream, where that is known)
    canon: bytes = b""

    @property
    def entries(self) -> int:
        """How many entries it has."""
        return len(self.prefixes)


class Difference(NamedTuple):
    """Pages that differ in one thing alone, and of each, where that is words, those that not all of them have."""

    what: str
    pages: Tuple[ListedPage, ...]
    words: Tuple[Tuple[str, ...], ...] = ()


class Beginning(NamedTuple):
    """A page that is the beginning of another one, and whether its last entry is one of that too."""

    part: ListedPage
    whole: ListedPage
    last_fits: bool


def difference(what: str, group: Sequence[ListedPage]) -> Difference:
    """The pages of a group, which differ in this alone."""
    return Difference(what, tuple(group), _different_words(group) if what == WORDS else ())


def beginnings(pages: Sequence[ListedPage]) -> Iterator[Beginning]:
    """Of each of these pages the longest of them that are its beginning."""
    parts: Dict[int, List[ListedPage]] = defaultdict(list)
    for page in pages:
        if page.entries >= LEAST_ENTRIES:
            parts[page.prefixes[-2]].append(page)
    known = frozenset(parts)
    for page in pages:
        # (of a part at least one entry more is left than its last)
        found = known.intersection(page.prefixes[LEAST_ENTRIES - 2:-2])
        if found:
            some = [part for each in found for part in parts[each]]
            longest = max(part.entries for part in some)
            yield from (Beginning(part, page, part.prefixes[-1] == page.prefixes[longest - 1])
                        for part in some if part.entries == longest)


def numbers_of(prefixes: bytes) -> "array[int]":
    """The hashes of first entries as numbers."""
    found = array("Q")
    found.frombytes(prefixes)
    return found


def _digest(data: bytes) -> bytes:
    return blake2b(data, digest_size=KEY).digest()


def _prefixes(listed: bytes) -> Iterator[bytes]:
    """The hash of the first lines, for each number of them."""
    state = blake2b(digest_size=PREFIX)
    for line in listed.splitlines(keepends=True):
        state.update(line)
        yield state.digest()


def _different_words(group: Iterable[ListedPage]) -> Tuple[Tuple[str, ...], ...]:
    """Of each page the words that not all of them have, in their order, MOST_WORDS at most."""
    every = [page.said.split() for page in group]
    common: Optional[Set[str]] = None
    for words in every:
        common = set(words) if common is None else common & set(words)
    return tuple(tuple(word for word in words if word not in (common or ()))[:MOST_WORDS] for words in every)


SAME_WORDS, NO_OTHERS = "(the same words, in another order)", "(no others)"
Found = Union[Difference, Beginning]


def show(output: Output, found: Found, as_object: bool) -> None:
    """Prints a group or a beginning, as text or as an object of JSON."""
    if as_object:
        output.line(dumps(_object(found)))
    else:
        output.text("".join(f"{line}\n" for line in _lines(found)))


def _lines(found: Found) -> Iterator[str]:
    if isinstance(found, Beginning):
        last = "with its last entry" if found.last_fits else "but for its last entry"
        yield f"{_names(found.part)} is a beginning of {_names(found.whole)}, {last}"
        return
    yield f"{len(found.pages)} pages differ in {found.what} alone:"
    for number, page in enumerate(found.pages):
        words = f": {words_of(found, number)}" if found.what == WORDS else ""
        yield f"  {_names(page)}{words}"


def words_of(found: Difference, number: int) -> str:
    """The words of one of the pages that not all of them have."""
    return " ".join(found.words[number]) or (NO_OTHERS if any(found.words) else SAME_WORDS)


def _names(page: ListedPage) -> str:
    return ", ".join(shown(each.name) + (f" treated by {each.treated}" if each.treated else "") for each in page.names)


def _object(found: Found) -> Members:
    if isinstance(found, Beginning):
        return {"beginning": _files(found.part), "of": _files(found.whole), "last_fits": found.last_fits}
    pages: List[Members] = [{"files": _files(page)} for page in found.pages]
    for page, words in zip(pages, found.words):
        page["words"] = list(words)
    return {"differ_in": found.what, "pages": pages}


def _files(page: ListedPage) -> List[Members]:
    return [{**as_json(each.name), **({"treated": each.treated} if each.treated else {})} for each in page.names]
