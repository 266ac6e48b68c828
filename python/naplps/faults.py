"""What the functions of naplps raise."""
from typing import Optional


class Error(Exception):
    """Whatever naplps raises that isn't a wrong argument."""


class Refused(Error):
    """The page is refused.

    `number` and `name` are those of a refusal in docs/PROFILE.md; the name has a word for what is left out, as
    "LeftOut CAN". `place` is the offset of the byte that is refused; for what is found at the page's end, its length in
    bytes. Its text is the line that the program prints, as "refused 10 Outside at 3".
    """

    def __init__(self, number: int, name: str, place: int) -> None:
        super().__init__(number, name, place)
        self.number, self.name, self.place = number, name, place

    def __str__(self) -> str:
        return "refused %d %s at %d" % (self.number, self.name, self.place)


class NotMade(Error):
    """The lines make no page, and `line`, from 1, is the first that is wrong.

    `reason` says why, as the program does: "no line of a list", and then `column`, from 1, is one before which the line
    could be an entry's; "can't come here"; or, at the last line, "the definition of line 5 isn't ended". Else `column`
    is None. Its text is the line that the program prints, as "line 3: no line of a list, at column 17".
    """

    def __init__(self, line: int, column: Optional[int], reason: str) -> None:
        super().__init__(line, column, reason)
        self.line, self.column, self.reason = line, column, reason

    def __str__(self) -> str:
        behind = "" if self.column is None else f", at column {self.column}"
        return f"line {self.line}: {self.reason}{behind}"


class NoMemory(Error, MemoryError):
    """There was no memory for the reading or for the answer, which says nothing of the page."""


class NoAnswer(Error):
    """The program gave no answer, with the reason, which says nothing of the page."""


class Unavailable(Error):
    """There is nothing to ask: neither the library nor the program, with the reason."""


class NeedsLibrary(Unavailable):
    """What was called isn't one of the program's requests, and there is no library."""


class WrongLibrary(Unavailable):
    """What was found as the library can't be loaded, or isn't the library of this version."""


class NoProgram(Exception):
    """There is no program to ask, with the reason."""


class NotALine(ValueError):
    """A line that `naplps list` doesn't print."""
