"""Builds the program of the sources as they are with no proof, in a minute or two, to try a change.

It prints the path of the program, out/tried/naplps, whose version says that it isn't proved. It is for trying alone:
./naplps never runs it, and it is neither kept nor installed nor packed. It looks at what the toolchain's `rt try` looks
at, so a contract that doesn't hold isn't seen. Tests take it by the variable NAPLPS.
"""
import os
import sys
import tempfile
import time
from pathlib import Path

from dev.layout import TOP, stop
from dev.packaging.kept import NotProved, sources_sum
from dev.rattle.unproved import build
from dev.words import parser_of

TRIED = TOP / "out" / "tried"


def main() -> int:
    """Builds the program, if it isn't that of these sources yet, and prints where it is."""
    parser_of(__doc__).parse_args()
    program, stamp, began = TRIED / "naplps", TRIED / "sources", time.monotonic()
    try:
        total = sources_sum("nap_cli")
        if not (program.is_file() and stamp.is_file() and stamp.read_text("ascii").strip() == total):
            TRIED.mkdir(parents=True, exist_ok=True)
            with tempfile.TemporaryDirectory(prefix=".try-", dir=TRIED) as folder:
                fresh = build(TOP, Path(folder).resolve())
                stamp.unlink(missing_ok=True)
                os.replace(fresh, program)
            stamp.write_text(f"{total}\n", "ascii")
            print(f"built in {time.monotonic() - began:.0f} s, not proved", file=sys.stderr)
    except (NotProved, OSError) as error:
        raise stop(str(error)) from None
    print(program)
    return 0


if __name__ == "__main__":
    sys.exit(main())
