"""Writes what man/naplps.1 says of refusals from python/naplps_pages/refusals.txt, of which the tool shows more.

The manual has each refusal, and each code that is left out; cases, commands and treatments are for the tool.
"""
import re
import sys
import textwrap
from typing import Iterable, Iterator, List, Tuple

from dev.layout import TOP
from dev.words import parser_of
from naplps_pages.refusals import every

MANUAL = TOP / "man" / "naplps.1"
OPTION = re.compile(r" ?--(\w+)(?: (\d+))?([.,;]?) ?")
# What the section begins with, and no refusal repeats: to keep a page, and to look for another copy.
REPEATED = re.compile(
    r"\b(Keep (the|a whole) (page|file) as it is|(Otherwise|If that doesn't help,) keep it as it is|"
    r"((If it is (damaged|cut), |Otherwise )?look|Look) for (another|a longer) copy)\. ?")
# A title, and the texts below it.
Item = Tuple[str, Iterable[str]]


def sentences(text: str) -> Iterator[str]:
    """A sentence a line, wrapped, with options as mdoc has them."""
    for sentence in re.split(r"(?<=[.;]) (?=[A-Z])", text):
        begin = 0
        for option in OPTION.finditer(sentence):
            yield from wrapped(sentence[begin:option.start()])
            value = "Li " + option[2] if option[2] else ""
            yield " ".join(filter(None, (".Fl Fl " + option[1], value, option[3])))
            begin = option.end()
        yield from wrapped(sentence[begin:])


def wrapped(text: str) -> List[str]:
    """The lines of a text, with dashes of names as mdoc has them."""
    lines = textwrap.wrap(text, 77, break_on_hyphens=False)
    return [re.sub(r"(?<=[A-Z])-(?=[A-Z])|(?<=naplps)-", r"\\-", line) for line in lines]


def refusals() -> Iterator[Item]:
    """Each refusal: what it means, what it may come from, and what can be done."""
    for text in every():
        if not text.code and not text.case:
            causes = "Causes: " + text.causes if text.causes else ""
            yield text.title, (text.means, causes, REPEATED.sub("", text.do).strip())


def codes() -> Iterator[Item]:
    """Each code that is left out, and what it means; it isn't repeated of the next code."""
    before = ""
    for text in every():
        if text.code and not text.case:
            rest = text.means.partition(text.code + ", ")[2]
            same = text.means.replace(f", {text.code}, {rest}", ", the same.")
            yield text.code, (same if rest == before else text.means,)
            before = rest or text.code


def replaced(text: str, items: Iterable[Item]) -> str:
    """The manual with these items in place of those from the first one to the end of its list."""
    lines: List[str] = []
    for title, parts in items:
        lines += [".It " + title, *(line for part in parts if part for line in sentences(part))]
    begin = text.index(lines[0] + "\n")
    return text[:begin] + "\n".join(lines) + "\n" + text[text.index(".El\n", begin):]


def main() -> int:
    """Writes both lists anew."""
    parser_of(__doc__).parse_args()
    text = MANUAL.read_text("utf-8")
    MANUAL.write_text(replaced(replaced(text, refusals()), codes()), "utf-8")
    return 0


if __name__ == "__main__":
    sys.exit(main())
