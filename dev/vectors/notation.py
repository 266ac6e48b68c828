"""The notation of vectors and of rows: bytes and lists as a row spells them, in both directions."""
import re
from typing import List

LONGEST_PERIOD = 24
QUOTED = re.compile(r'"([^"]*)"(\*)?')


def bytes_of(text: str) -> bytes:
    """The bytes that a text spells: `40*7` is seven times 40, `(26 52)*3` three times 26 52, and `"A"` is that text."""
    text = QUOTED.sub(_digits, text).upper()
    while "*" in text:
        text, count = re.subn(r"(?:([0-9A-F]{2})|\(([0-9A-F ]*)\))\*([0-9]+)", _repeated, text)
        if not count:
            raise ValueError(f"a count stands behind nothing: {text[:60]}")
    return bytes.fromhex(text)


def _digits(match: "re.Match[str]") -> str:
    digits = match[1].encode().hex(" ")
    return f"({digits})*" if match[2] else f"{digits} "


def _repeated(match: "re.Match[str]") -> str:
    part = (match[1] or match[2]).strip() + " "
    return part * int(match[3])


def spelled(data: bytes) -> str:
    """The shortest such text that takes the first repetitions it finds."""
    words: List[str] = []
    index = 0
    while index < len(data):
        period, times = _repetition(data, index)
        part = " ".join(f"{byte:02X}" for byte in data[index : index + period])
        if times > 1:
            part = f"({part})*{times}" if period > 1 else f"{part}*{times}"
        words.append(part)
        index += period * times
    return " ".join(words)


def _repetition(data: bytes, index: int) -> "tuple[int, int]":
    """The length of the part that is repeated from here on, and how often it stands there: the one that saves most."""
    best, saved = (1, 1), 0
    for period in range(1, min(LONGEST_PERIOD, len(data) - index) + 1):
        part = data[index : index + period]
        times = 1
        while data.startswith(part, index + period * times):
            times += 1
        saves = 3 * period * (times - 1) - (2 if period == 1 else 4) - len(str(times))
        if times >= 3 and saves > saved:
            best, saved = (period, times), saves
    return best


def lines_of(text: str) -> List[str]:
    """The lines of a list: parted by `;`, and `W *3` is a line three times, `W*3` a word three times."""
    lines: List[str] = []
    for part in filter(None, (part.strip() for part in text.split(";"))):
        line, _, times = part.rpartition(" *")
        line, count = (line, int(times)) if line else (part, 1)
        words = re.sub(r"(\S+)\*([0-9]+)", lambda match: " ".join([match[1]] * int(match[2])), line)
        lines += [words] * count
    return lines


def listed(lines: List[str]) -> str:
    """The lines of a list as a row has them."""
    parts: List[str] = []
    index = 0
    while index < len(lines):
        times = 1
        while lines[index + times : index + times + 1] == [lines[index]]:
            times += 1
        parts.append(_counted(lines[index].split(" ")) + (f" *{times}" if times > 1 else ""))
        index += times
    return "; ".join(parts)


def _counted(words: List[str]) -> str:
    """Words, of which equal ones that follow each other are counted from three on."""
    out: List[str] = []
    index = 0
    while index < len(words):
        times = 1
        while words[index + times : index + times + 1] == [words[index]]:
            times += 1
        out += [f"{words[index]}*{times}"] if times > 2 else [words[index]] * times
        index += times
    return " ".join(out)


def counted(numbers: List[int]) -> str:
    """Numbers, of which equal ones that follow each other are counted."""
    return _counted([str(number) for number in numbers])


def numbers_of(text: str) -> List[int]:
    """The numbers that a text counts: `5*3` is 5 three times."""
    return [int(number) for line in lines_of(text) for number in line.split()]
