"""Looks at all wrong bodies: whether each fits its source, has its row and a verdict, and stands below its promises.

None is tried: python3 -m dev.wrong_bodies does that. With --write nothing is looked at, and the wrong bodies of
docs/wrong-bodies.tsv are written below the promises of docs/PROMISES.md that they break.
"""
import sys

from dev.layout import TOP, stop
from dev.rattle.promises import PROMISES, rows_of_list, with_bodies
from dev.rattle.wrong_bodies import faults
from dev.words import parser_of


def main() -> int:
    """Writes the page, or prints what is wrong; 0 where nothing is."""
    parser = parser_of(__doc__)
    parser.add_argument("--write", action="store_true", help="write docs/PROMISES.md")
    options, page = parser.parse_args(), TOP / PROMISES
    try:
        if options.write:
            page.write_text(with_bodies(page.read_text("utf-8"), rows_of_list(TOP)), "utf-8")
            return 0
        found = list(faults(TOP))
    except ValueError as error:
        raise stop(str(error)) from None
    print("".join(f"{fault}\n" for fault in found), end="")
    return 1 if found else 0


if __name__ == "__main__":
    sys.exit(main())
