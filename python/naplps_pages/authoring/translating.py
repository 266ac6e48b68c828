"""Translates a source into the lines of a list, each with the place in the source that it comes from."""
import re
from array import array
from dataclasses import dataclass, field
from difflib import get_close_matches
from io import StringIO
from typing import Any, Callable, Dict, Iterator, List, NamedTuple, Optional, Sequence, Tuple

from naplps import letters
from naplps.entry import HELD, MAKERS, ONE, Arc, Char, Colour, Entry, Pen, Position
from naplps.kinds import CHOICES, KEYS, MORE
from naplps.kinds import KINDS as OF_LINES
from naplps.writer import Attributes, PageState

from .. import messages
from . import values
from .values import (
    NO_LOOK_PARTS, NO_TEXTURE_PARTS, LookParts, Mistake, NotUnderstood, TextureParts, expected, inner, quoted,
)

# A longer line is none.
MOST_LINE = 1 << 16
_BLANKS = re.compile(r"[ \t]*")
_WORD = re.compile(r'[^ \t"]+')
_CONTROL = re.compile(r"[\x00-\x08\x0a-\x1f\x7f]")
_PLAIN = re.compile(r'[^"\\]+')
COMMENT, QUOTE, ESCAPE = "#", '"', "\\"


class LinePart(NamedTuple):
    """A word as it is; or the letters of a text between quotes, each with its column. Columns count from 0."""

    column: int
    word: str
    letters: Tuple[Tuple[int, str], ...] = ()
    is_quoted: bool = False


def parts_of(line: str) -> List[LinePart]:
    """The parts of a line without its comment. Raises NotUnderstood."""
    if len(line) > MOST_LINE:
        raise NotUnderstood(MOST_LINE, messages.LONG_LINE.format(most=MOST_LINE))
    control = _CONTROL.search(line)
    if control:
        raise NotUnderstood(control.start(), messages.CONTROL_IN_LINE.format(code=ord(control[0])))
    found: List[LinePart] = []
    at = _blanks(line, 0)
    while at < len(line):
        part, end = _quoted(line, at) if line[at] == QUOTE else _word(line, at)
        if part.word == COMMENT and not part.is_quoted:
            break
        found.append(part)
        at = _blanks(line, end)
    return found


def _blanks(line: str, at: int) -> int:
    found = _BLANKS.match(line, at)
    return found.end() if found else at


def _word(line: str, at: int) -> Tuple[LinePart, int]:
    found = _WORD.match(line, at)
    assert found
    if line[found.end():found.end() + 1] == QUOTE:
        raise NotUnderstood(found.end(), messages.TEXT_IN_WORD)
    return LinePart(at, found[0]), found.end()


def _quoted(line: str, start: int) -> Tuple[LinePart, int]:
    """The text between quotes that begins there, and where it ends. A backslash stands before a quote or another."""
    letters: List[Tuple[int, str]] = []
    at = start + 1
    while at < len(line) and line[at] != QUOTE:
        if line[at] == ESCAPE:
            if line[at + 1:at + 2] not in (QUOTE, ESCAPE):
                raise NotUnderstood(at, messages.WRONG_ESCAPE)
            at += 1
            letters.append((at - 1, line[at]))
            at += 1
            continue
        plain = _PLAIN.match(line, at)
        assert plain
        letters.extend(enumerate(plain[0], at))
        at = plain.end()
    if at == len(line):
        raise NotUnderstood(start, messages.TEXT_NOT_ENDED)
    if line[at + 1:at + 2] not in ("", " ", "\t"):
        raise NotUnderstood(at + 1, messages.NO_SPACE_AFTER_TEXT)
    return LinePart(start, "", tuple(letters), True), at + 1


# The most points of a shape.
MOST_POINTS = 2001
INK, HAND = ("pel", "colour", "texture"), ("pen", "colour", "text")
SET, TEXT = "SET", "TEXT"
LONGEST_NAME = 20


class Operand(NamedTuple):
    """A word of a line that is no field: how it looks, what it is, and what reads it."""

    form: str
    what: str
    read: Callable[[str], Any]


class LineKind(NamedTuple):
    """A kind of lines: how such a line looks, its operands, of which the last may repeat, its fields and its entry."""

    form: str
    operands: Tuple[Operand, ...]
    fields: Tuple[str, ...]
    make: Callable[[Sequence[Any], Attributes], Entry]
    most: int = 0

    def operand(self, number: int) -> Operand:
        """The operand with a number, from 0 on."""
        return self.operands[min(number, len(self.operands) - 1)]

    @property
    def shown(self) -> str:
        """How such a line looks, with its fields."""
        return " ".join([self.form, *(name + "=.." for name in self.fields)])


def _one_of(form: str, *choices: str) -> Operand:
    what = ", ".join(choices[:-1]) + " or " + choices[-1] if len(choices) > 1 else choices[0]

    def read(text: str) -> str:
        if text not in choices:
            raise expected(what, text)
        return text
    return Operand(form, what, read)


# The operands of lines, by the sorts of fields that they are.
OPERANDS: Dict[str, Operand] = {
    "Point": Operand("x,y", values.A_POINT, values.point), "Code": Operand("XX", messages.A_CODE, values.code),
    "Addr": Operand("A", values.AN_ADDRESS, values.address),
    "Word": Operand("N", messages.A_NUMBER.format(most=values.MOST_WORD), values.word),
    "Parts": Operand("COLOUR", messages.A_MAP_COLOUR, values.map_value),
    "Times": Operand("on,off,delay", messages.ON_OFF_DELAY, values.words),
    "Set": _one_of("SET", *CHOICES["Set"]), "Step": _one_of("APB", *CHOICES["Step"], "APS"),
    "Cursor": _one_of("flash", *CHOICES["Cursor"]), "Mask": _one_of("A", *CHOICES["Mask"])}


def _line_kind(words: str, row: str) -> LineKind:
    """The lines of sources that begin with the words of a line of a list, which have its fields."""
    name, *second = words.split(" ")
    sorts, is_shape = row.replace(MORE, " ").split(), MORE in row
    fields = tuple(KEYS[sort] for sort in sorts if sort in KEYS)
    operands = [*(_one_of(word, word) for word in second), *(OPERANDS[sort] for sort in sorts if sort not in KEYS)]

    def make(it: Sequence[Any], by: Attributes) -> Entry:
        read = (tuple(it),) if is_shape else it[len(second):]
        return MAKERS[words](*read, *(getattr(by, field) for field in fields))
    form = " ".join([name, *(each.form for each in operands), *[MORE.strip()] * is_shape])
    return LineKind(form, tuple(operands), fields, make, MOST_POINTS if is_shape else 0)


def _circle(name: str, filled: bool) -> LineKind:
    def make(it: Sequence[Any], by: Attributes) -> Entry:
        (x, y), radius = it
        if not radius <= x < ONE - radius:
            raise NotUnderstood(0, messages.CIRCLE_LEAVES)
        left, right = (x - radius, y), (x + radius, y)
        return Arc(filled, (left, right, left), by.pel, by.colour, by.texture)
    return LineKind(name + " x,y r", (OPERANDS["Point"], Operand("r", values.A_RADIUS, values.radius)), INK, make)


# A second word stands in a name where it says what follows.
KINDS: Dict[str, LineKind] = {
    **{words: _line_kind(words, row) for words, row in OF_LINES.items()},
    "CIRCLE": _circle("CIRCLE", False), "CIRCLE-FILLED": _circle("CIRCLE-FILLED", True)}
NAMES = tuple(sorted({name.split()[0] for name in KINDS} | {SET, TEXT}))


def kind_of(name: str, second: str) -> LineKind:
    """The kind of lines with these first words. Raises NotUnderstood for a name that none has."""
    kind = KINDS.get(f"{name} {second}") or KINDS.get(name)
    if kind is None:
        raise unknown(name)
    return kind


def unknown(name: str) -> Exception:
    """The fault for a first word that no line has, with the name that was probably meant."""
    if name.startswith("#"):
        return expected(messages.A_SPACE_AFTER_HASH, name)
    near = get_close_matches(name.upper()[:LONGEST_NAME], NAMES, 1)
    return expected(messages.A_BEGINNING_AS.format(name=near[0]) if near else
                    messages.A_BEGINNING.format(names=", ".join(NAMES)), name)


def surplus(word: str, shown: str) -> str:
    """What is said of a word after the last that a line has."""
    return messages.TOO_MUCH_IN_LINE.format(word=quoted(word), line=shown)


# The greatest number of mistakes that are reported, and of bytes of the lines of a list.
MOST_MISTAKES, MOST_BYTES = 20, 16 << 20
BYTE_ORDER_MARK = "\ufeff"
BLANK = ("\n", "\r\n")
OF_SET = ("pel", "colour", "texture", "text")
READERS: Dict[str, Callable[[str], Any]] = {
    "pen": values.pen, "pel": values.size, "colour": values.colour, "texture": values.texture, "text": values.look}


class Fields(NamedTuple):
    """What the fields of a line say, or those of `SET`."""

    pen: Optional[Pen] = None
    pel: Optional[Position] = None
    colour: Optional[Colour] = None
    texture: TextureParts = NO_TEXTURE_PARTS
    text: LookParts = NO_LOOK_PARTS


NO_FIELDS = Fields()


class MadeEntry(NamedTuple):
    """An entry that a source makes, and the line and the column of what makes it, both from 1."""

    entry: Entry
    line: int
    column: int


class Translator:
    """Reads a source line by line. What lines leave out is what `SET` says, or what the last line with it drew with.

    The pen alone is that of the page; MAP, RESET and END change the page's state, but nothing that is left out.
    """

    def __init__(self) -> None:
        self.state = PageState()
        self.last = self.state.drawing
        self.presets = NO_FIELDS
        self.mistakes: List[Mistake] = []

    def entries(self, source: str) -> Iterator[MadeEntry]:
        """The entries of a source. While one is handed out, `state` is what it finds."""
        for number, line in enumerate(StringIO(source.removeprefix(BYTE_ORDER_MARK), newline="\n"), 1):
            if line in BLANK:
                continue
            try:
                for column, entry in self._entries(line.removesuffix("\n").removesuffix("\r")):
                    if not self.state.repeats(entry):
                        yield MadeEntry(entry, number, column + 1)
                        self.take(entry)
            except NotUnderstood as error:
                self.mistakes.append(Mistake(number, error.offset + 1, error.message))
                if len(self.mistakes) == MOST_MISTAKES:
                    return

    def take(self, entry: Entry) -> None:
        """An entry comes: the state after it, and what lines after it may leave out."""
        self.state.take(entry)
        held = {name: getattr(entry, name) for name in HELD.get(type(entry), ()) if name != "pen"}
        if held:
            self.last = self.last._replace(**held)

    def left_out(self) -> Attributes:
        """What a line draws with where it says nothing: the current value where no page can have the last one again."""
        now, last = self.state.drawing, self.last
        colour = last.colour if now.can_have_colour(last.colour) else now.colour
        texture = last.texture if now.can_have_texture(last.texture) else now.texture
        return Attributes(now.pen, last.pel, now.base, colour, texture, last.text)

    def _entries(self, line: str) -> Iterator[Tuple[int, Entry]]:
        """The entries of a line, each after its column, from 0. Raises NotUnderstood."""
        found = parts_of(line)
        if not found:
            return
        first, rest = found[0], found[1:]
        if first.word == SET:
            self._set(rest)
        elif first.word == TEXT:
            yield from self._text(first, rest)
        else:
            kind = self._kind(first, rest)
            operands, given = _parted(rest, kind.fields, kind.shown)
            end = _end(rest[-1] if rest else first)
            read, by = _read(kind, operands, end), self._attributes(given)
            yield first.column, inner(lambda _: kind.make(read, by), first.column, "")

    def _kind(self, first: LinePart, rest: List[LinePart]) -> LineKind:
        try:
            return kind_of(first.word, next((each.word for each in rest if "=" not in each.word), ""))
        except NotUnderstood as error:
            raise NotUnderstood(first.column, error.message) from None

    def _attributes(self, given: Fields) -> Attributes:
        """What is given; else what was set; else what the last line drew with."""
        left, preset = self.left_out(), self.presets
        if given is NO_FIELDS and preset is NO_FIELDS:
            return left
        return Attributes(
            left.pen if given.pen is None else given.pen, given.pel or preset.pel or left.pel, left.base,
            given.colour or preset.colour or left.colour, given.texture.over(preset.texture.over(left.texture)),
            given.text.over(preset.text.over(left.text)))

    def _set(self, rest: List[LinePart]) -> None:
        """Sets what stands for fields that are left out; nothing forgets what was set."""
        operands, given = _parted(rest, OF_SET, messages.SET_LINE)
        if operands:
            raise NotUnderstood(operands[0].column, surplus(operands[0].word, messages.SET_LINE))
        named = {part.word.partition("=")[0] for part in rest}
        self.presets = self.presets._replace(**{name: getattr(given, name) for name in named}) if named else NO_FIELDS

    def _text(self, first: LinePart, rest: List[LinePart]) -> Iterator[Tuple[int, Entry]]:
        """A character for each letter, and one before it for its accent."""
        texts = [part for part in rest if part.is_quoted]
        operands, given = _parted([part for part in rest if not part.is_quoted], HAND, messages.TEXT_LINE)
        if operands:
            raise NotUnderstood(operands[0].column, surplus(operands[0].word, messages.TEXT_LINE))
        if not texts:
            raise NotUnderstood(_end(rest[-1] if rest else first), messages.NO_TEXT.format(line=messages.TEXT_LINE))
        if len(texts) > 1 or not texts[0].letters:
            raise NotUnderstood(texts[-1].column, messages.NOT_ONE_TEXT)
        by = self._attributes(given)
        for column, set_name, code in _characters(texts[0].letters):
            yield column, Char(set_name, code, by.pen, by.colour, by.text)
            by = by._replace(pen="after")


def _end(part: LinePart) -> int:
    return part.column + len(part.word)


def _parted(rest: List[LinePart], allowed: Tuple[str, ...], shown: str) -> Tuple[List[LinePart], Fields]:
    """The operands and the fields of a line. Raises NotUnderstood."""
    operands: List[LinePart] = []
    given: Dict[str, Any] = {}
    for part in rest:
        name, equals, value = part.word.partition("=")
        if not equals:
            operands.append(part)
        elif name not in allowed:
            raise NotUnderstood(part.column, messages.NO_FIELD.format(name=quoted(name), line=shown))
        elif name in given:
            raise NotUnderstood(part.column, messages.FIELD_TWICE.format(name=name))
        else:
            given[name] = inner(READERS[name], part.column + len(name) + 1, value)
    return operands, Fields(**given) if given else NO_FIELDS


def _read(kind: LineKind, operands: List[LinePart], end: int) -> List[Any]:
    """The values of the operands. Raises NotUnderstood."""
    least = len(kind.operands)
    if len(operands) > max(least, kind.most):
        extra = operands[max(least, kind.most)]
        raise NotUnderstood(extra.column, messages.MANY_POINTS.format(most=kind.most) if kind.most else surplus(
            extra.word, kind.shown))
    found = [_value(kind, number, part) for number, part in enumerate(operands)]
    if len(found) < least:
        missing = kind.operand(len(found)).what
        raise NotUnderstood(end, messages.LACKING_IN_LINE.format(what=missing, line=kind.shown))
    return found


def _value(kind: LineKind, number: int, part: LinePart) -> Any:
    operand = kind.operand(number)
    if part.is_quoted:
        raise NotUnderstood(part.column, messages.EXPECTED.format(what=operand.what, text=messages.A_TEXT)
                            if kind.operands else surplus(messages.A_TEXT, kind.shown))
    return inner(operand.read, part.column, part.word)


def _characters(quoted_letters: Tuple[Tuple[int, str], ...]) -> List[Tuple[int, str, int]]:
    """The characters of a text: column, set and code. Raises NotUnderstood."""
    found: List[Tuple[int, str, int]] = []
    for at, sign in letters.signs("".join(letter for _, letter in quoted_letters)):
        column = quoted_letters[at][0]
        codes = letters.codes(sign)
        if not codes:
            raise expected(messages.LETTERS, sign, column)
        found.extend((column, set_name, code) for set_name, code in codes)
    return found


@dataclass
class Translation:
    """The lines of a list, each with its end; what of the source each comes from; and what is wrong with the source."""

    text: bytearray = field(default_factory=bytearray)
    mistakes: List[Mistake] = field(default_factory=list)
    # (a source may make millions of lines)
    _lines: "array[int]" = field(default_factory=lambda: array("L"))
    _columns: "array[int]" = field(default_factory=lambda: array("L"))

    def add(self, made: MadeEntry) -> None:
        """Takes the line of an entry. What comes after a mistake isn't kept."""
        if self.mistakes:
            return
        self.text += str(made.entry).encode("ascii") + b"\n"
        self._lines.append(made.line)
        self._columns.append(made.column)
        if len(self.text) > MOST_BYTES:
            self.mistakes.append(Mistake(*self.origin(len(self._lines)), messages.LONG_LIST.format(most=MOST_BYTES)))

    def origin(self, number: int) -> Tuple[int, int]:
        """The line and the column of the source that a line, from 1, comes from."""
        return self._lines[number - 1], self._columns[number - 1]


def translate(source: str) -> Translation:
    """The lines that a source makes, or what is wrong with it."""
    translator = Translator()
    made = Translation(mistakes=translator.mistakes)
    for entry in translator.entries(source):
        made.add(entry)
        if len(made.text) > MOST_BYTES:
            break
    return made


def misfit(source: str, number: int) -> Optional[str]:
    """Why the line of that number, from 1, of those that a source makes can't come; None where that isn't known."""
    translator = Translator()
    for count, made in enumerate(translator.entries(source), 1):
        if count == number:
            return translator.state.misfit(made.entry)
    return None
