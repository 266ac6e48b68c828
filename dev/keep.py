"""Puts the program and the parts of the library for C that are proved into dist, with what they were made from.

`rt ci` runs first, and proves what isn't proved yet on this machine; where it fails nothing is kept. With --proved it
doesn't run: the `rt ci` with that log has just proved and built what is in crates/. Commit dist with the sources.

MADE has the checksums of the sources and of the files, the toolchain, and of each crate the verdict that `rt ci`
printed. It prints none of a crate that an earlier run proved: then the line is that of the last MADE, or that of an
earlier log, named by --verdicts.

Where comments and the layout alone changed, --comments takes a second: it writes into MADE which files the program has
now, so that a start finds it without Python.
"""
import re
import shutil
import subprocess
import sys
from pathlib import Path
from typing import Dict

from dev.layout import TOP, File, stop, write_files
from dev.packaging import for_browsers
from dev.packaging.kept import (
    ARCHIVE, BUILT, EARLIER, HEAP, KEPT, MADE, MODES, PROGRAM, VERDICT, NotProved, archive_after_gate, ask, file_sum,
    files_sum, heap, kept_crates, sources_sum, verdicts_of,
)
from dev.packaging.made import made_of, read_made
from dev.packaging.webassembly import NotMade
from dev.rattle.sums import crate_sum
from dev.words import parser_of

OF_FILES = "program-files"


def prove() -> str:
    """The log of `rt ci`, whose lines are shown as they come; raises NotProved where it fails."""
    (TOP / "out" / "libnaplps.so").unlink(missing_ok=True)
    for library in TOP.glob("crates/*/out/rlib"):
        shutil.rmtree(library)  # (rt leaves a library of earlier sources as it is)
    lines = []
    with subprocess.Popen(["rt", "ci"], cwd=TOP, stdin=subprocess.DEVNULL, stdout=subprocess.PIPE,
                          stderr=subprocess.STDOUT, encoding="utf-8", errors="replace") as process:
        assert process.stdout is not None
        for line in process.stdout:
            print(line, end="", flush=True)
            lines.append(line)
    if process.returncode:
        raise NotProved(f"rt ci didn't pass, and ended with the status {process.returncode}, so nothing is kept")
    return "".join(lines)


def verdicts(log: str, earlier: str, sums: Dict[str, str]) -> Dict[str, str]:
    """Of each crate its sources' checksum, and what `rt ci` printed."""
    new, old, made = verdicts_of(log), verdicts_of(earlier), read_made(MADE)
    values = {}
    for crate in kept_crates():
        total, _, line = made.get(crate, "").partition(" ")
        last = line if total == sums[crate] and VERDICT.fullmatch(line) else ""
        values[crate] = f"{sums[crate]} {new.get(crate) or last or old.get(crate) or EARLIER}"
    return values


def every_sum() -> Dict[str, str]:
    """The checksum of the sources of each crate that is in the program or in the library, as they are now."""
    crate_sum.cache_clear()
    return {crate: sources_sum(crate) for crate in kept_crates()}


def keep(log: str, earlier: str, sums: Dict[str, str]) -> None:
    """Puts all in dist; raises NotProved."""
    if not re.search(r"^\d+ passed, 0 failed\n*\Z", log, re.MULTILINE):
        raise NotProved("rt ci didn't pass, so nothing is kept")
    if not BUILT.is_file():
        raise NotProved(f"rt ci left no program at {BUILT}")
    files = {PROGRAM: BUILT, ARCHIVE: archive_after_gate(), HEAP: heap()}
    of_crates = verdicts(log, earlier, sums)
    if every_sum() != sums:
        raise NotProved("a source changed meanwhile, so nothing is kept")
    of_sources = {"program-sources": sums["nap_cli"], "library-sources": sums["nap_c"]}
    of_files = {OF_FILES: files_sum("nap_cli"), **{name: file_sum(path) for name, path in files.items()}}
    made = made_of({**of_sources, **of_files, "toolchain": ask("rt", "version"), **of_crates})
    write_files(KEPT, {name: File(path.read_bytes(), MODES[name]) for name, path in files.items()})
    write_files(KEPT, {MADE.name: made})
    for part, make in (("module", for_browsers.make), ("page", for_browsers.make_page)):
        try:
            write_files(for_browsers.FOLDER, make())
            return
        except NotMade as error:
            print(f"the {part} of dist/browser stays as it was: {error}")


def renew() -> None:
    """Writes the checksum of the files into MADE; raises NotProved where more than comments and layout changed."""
    made = read_made(MADE)
    for name, crate in (("program-sources", "nap_cli"), ("library-sources", "nap_c")):
        if made.get(name) != sources_sum(crate):
            raise NotProved(f"more than comments and layout changed since {MADE} was made")
    write_files(KEPT, {MADE.name: made_of({**made, OF_FILES: files_sum("nap_cli")})})


def main() -> int:
    """Keeps all, and prints where."""
    parser = parser_of(__doc__)
    parser.add_argument("--proved", type=Path, metavar="LOG", help="the log of an `rt ci` that passed just now, here")
    parser.add_argument("--verdicts", type=Path, metavar="LOG", action="append", default=[],
                        help="an earlier log of `rt ci`, for the verdicts in it; may be repeated")
    parser.add_argument("--comments", action="store_true", help="only comments and layout changed: renew MADE alone")
    options = parser.parse_args()
    if options.comments and (options.proved or options.verdicts):
        parser.error("--comments takes no log")
    try:
        if options.comments:
            renew()
            return 0
        sums = every_sum()
        log = options.proved.read_text("utf-8", "replace") if options.proved else prove()
        keep(log, "".join(path.read_text("utf-8", "replace") for path in options.verdicts), sums)
    except (NotProved, OSError) as error:
        raise stop(str(error)) from None
    print(f"{KEPT.relative_to(TOP)} is that of these sources")
    return 0


if __name__ == "__main__":
    sys.exit(main())
