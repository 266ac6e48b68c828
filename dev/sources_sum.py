"""Prints the checksums of the sources.

Of a crate it is that of its line and of those below it in crates.txt, and of each file of their src, specs and proofs,
token by token: comments, blank lines and layout don't change it. Without a crate it prints two lines, with the checksum
of what the program is made from and of what the library for C is made from. Tests and documents change neither.
"""
import sys

from dev.layout import TOP, stop
from dev.rattle.sums import Unread, sum_of
from dev.words import parser_of


def main() -> int:
    """Prints them."""
    parser = parser_of(__doc__)
    parser.add_argument("crate", nargs="?", metavar="CRATE", help="a crate of crates.txt")
    crate = parser.parse_args().crate
    try:
        if crate:
            print(sum_of(TOP, crate))
        else:
            print(f"program-sources: {sum_of(TOP, 'nap_cli')}\nlibrary-sources: {sum_of(TOP, 'nap_c')}")
    except Unread as error:
        raise stop(str(error)) from None
    return 0


if __name__ == "__main__":
    sys.exit(main())
