"""Vectors as they are in the files: a line of what it shows, and a row."""
import re
from pathlib import Path
from typing import Dict, Iterator, List, NamedTuple, Optional

from dev.layout import TOP
from dev.vectors.notation import bytes_of, counted, listed, spelled
from dev.vectors.readings import Answer

FOLDER = TOP / "vectors"
USUAL_BUDGET = 1_048_576
ROW = re.compile(r"(?P<stream>[^|]*) \| (?P<list>[^|]*) \| (?P<ending>[^|]+) \| (?P<more>[^|]+)")
TITLE = re.compile(r"# (?P<rule>[^:]+): (?P<shows>[^a-z ].*\.)")


class Vector(NamedTuple):
    """A vector: where it stands, the rule that it shows, and the fields of its row."""

    place: str
    rule: str
    shows: str
    stream: str
    list: str
    ending: str
    more: Dict[str, str]

    @property
    def accepted(self) -> bool:
        """Whether its stream is accepted."""
        return not self.ending.startswith("refused ")

    @property
    def budget(self) -> int:
        """The budget that it is read under."""
        return int(self.more.get("budget", USUAL_BUDGET))

    @property
    def data(self) -> bytes:
        """The bytes of its stream."""
        return bytes_of(self.stream)


def row_of(vector: Vector, answer: Answer) -> str:
    """The row of a vector whose answer is this."""
    result = answer.refusal or spelled(answer.text or b"")
    return " | ".join([vector.stream, listed(answer.lines), result, ", ".join(_more(vector.budget, answer))])


def _more(budget: int, answer: Answer) -> Iterator[str]:
    yield "plain" if answer.plain else "not plain"
    if budget != USUAL_BUDGET:
        yield f"budget {budget}"
    if answer.charged:
        yield f"charged {answer.charged}"
        yield f"turns {answer.turns}"
    if answer.early:
        yield f"fed {answer.fed}"
    if answer.places:
        yield f"places {counted(answer.places)}"
    if answer.form1 is not None and answer.form1 != answer.text:
        yield f"form1 {spelled(answer.form1)}"


def files() -> List[Path]:
    """The files of vectors of streams, in the order of their names."""
    return sorted(set(FOLDER.glob("*.rows")) - {FOLDER / "lines.rows"})


def is_row(line: str) -> bool:
    """Whether a line of a file has a row: it is neither empty nor a title."""
    return line != "" and not line.startswith("#")


def vectors_of(file: Path) -> Iterator[Vector]:
    """The vectors of a file; raises ValueError where a line has another form."""
    title: Optional["re.Match[str]"] = None
    for number, line in enumerate(file.read_text("ascii").splitlines(), 1):
        place = f"{file.name}:{number}"
        if line.startswith("##") or not line:
            continue
        if not is_row(line):
            title = TITLE.fullmatch(line)
            if title is None:
                raise ValueError(f"{place}: a line `# RULE: What it shows.` was wanted")
            continue
        row = ROW.fullmatch(line if line[0] != "|" else " " + line)
        if row is None or title is None:
            raise ValueError(f"{place}: a row with four fields was wanted, behind what it shows")
        yield Vector(place, title["rule"], title["shows"], row["stream"].strip(), row["list"].strip(), row["ending"],
                     _words(row["more"]))
        title = None


def _words(text: str) -> Dict[str, str]:
    """The words of the fourth field, and what stands after each."""
    words = {}
    for part in text.split(", "):
        word, _, value = part.partition(" ")
        words[word] = value
    return words
