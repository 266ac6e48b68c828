"""Makes dist/browser: the library as a WebAssembly module, of the code that was proved, and the page naplps.html.

`python3 -m dev.keep`, and the gate by tests/packages/test_kept.py, compile the library once its proofs have passed,
and leave the LLVM code of that compilation in crates/nap_c/out. It is compiled again for wasm64 by the toolchain,
linked with a heap of its own (browser/module), and lowered to wasm32 by binaryen. Nothing is proved twice, and equal
code and versions give equal bytes. A layout of data, an instruction of another processor or a type of a call that
isn't the expected one ends it, and so does a stack that could run over.

With --page it makes the page alone, of the module that dist/browser has, and what else is made of browser/: the scripts
with which players draw. It needs no proof and no tool but Python: run it after a change of browser/, of a player, of a
text on refusals or of the version.

The page is one file that needs no other and opens no connection, from a disk or from any web server. So is the script
of the element: a page of the web has `<script src="naplps-page.js"></script>`, and `<naplps-page src="page.nap"
alt="..">` then shows the picture of a canonical stream. docs/BROWSER.md has the rest.
"""
import sys
from argparse import Namespace
from pathlib import Path

from dev.layout import TOP, stop, write_files
from dev.packaging.for_browsers import FOLDER, MODULE, PAGE, make, make_page
from dev.packaging.for_pages import element, page, player_scripts
from dev.packaging.kept import NotProved
from dev.packaging.webassembly import NotMade
from dev.words import parser_of

KEPT = FOLDER / PAGE


def words() -> Namespace:
    """The words of the command line."""
    parser = parser_of(__doc__)
    parts = parser.add_mutually_exclusive_group()
    parts.add_argument("--page", nargs="?", type=Path, const=KEPT, metavar="FILE",
                       help="the page alone: that of dist/browser, or in FILE")
    parts.add_argument("--element", type=Path, metavar="FILE", help="the script of the element, such as naplps-page.js")
    parser.add_argument("--module", type=Path, metavar="FILE",
                        help="the WebAssembly module of a page in a FILE, in place of that of dist/browser")
    options = parser.parse_args()
    if options.module and options.page in (None, KEPT):
        parser.error("--module belongs to --page FILE")
    return options


def main() -> int:
    """Makes what is named."""
    options = words()
    try:
        if options.element:
            options.element.write_text(element(), "utf-8")
        elif options.page in (None, KEPT):
            for path, script in player_scripts().items():
                path.write_text(script, "utf-8")
            write_files(FOLDER, make_page() if options.page else make())
            made_of = "these sources" if options.page else "the code in crates/nap_c/out"
            print(f"{(options.page or FOLDER).relative_to(TOP)} is that of {made_of}")
        else:
            options.page.write_text(page((options.module or FOLDER / MODULE).read_bytes()), "utf-8")
    except (NotMade, NotProved, OSError) as error:
        raise stop(str(error)) from None
    return 0


if __name__ == "__main__":
    sys.exit(main())
