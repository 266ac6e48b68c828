"""The command report: what a scan found, in one HTML file or served to browsers of this machine."""
import os
import sys
from typing import List, Optional

from naplps.names import shown

from .. import messages
from ..console import COMPLETE, FAILED, Output, tell
from . import COLLECTION_GROUP, JOBS, OUTPUT, STORE, TIMEOUT, Command, Given, OneOf, Option, Part, number

# The greatest number of processes of a report.
MOST_DRAWING = 64
ALL = "all"
OUT = OUTPUT._replace(title="FILE", help="the file to write, or - for standard output")
SERVE = Option("--serve", "serve it to browsers on this machine, at the address that is printed, until interrupted",
               default=False)
PORT = Option("--port", "the port of 127.0.0.1 for --serve; the default is a free one", "N", number(0, 65535))
FORCE = Option("--force", "replace an existing report", default=False)


def _parts() -> List[Part]:
    from ..report import MOST_SKETCHES, USUAL_SKETCHES

    def count(text: str) -> Optional[int]:
        return None if text == ALL else number(0, MOST_SKETCHES)(text)
    most = Option("--max-pictures", f"how many pages get a picture in the file; the default is {USUAL_SKETCHES}; `all` "
                  f"is for up to {MOST_SKETCHES} pages", "N", count, default=USUAL_SKETCHES, to="sketches")
    jobs = JOBS._replace(read=number(1, MOST_DRAWING))
    return [STORE, OneOf((OUT, SERVE), True), FORCE, PORT, most, jobs, TIMEOUT]


def _check(given: Given) -> None:
    """Exits where an option of a file is asked for with --serve, or the other way round."""
    from .. import outputs
    given.into, given.output_file = None, None if given.output == outputs.STANDARD else given.output
    if given.serve and given.force:
        given.parser.error("--serve and --force exclude each other")
    if not given.serve and given.port is not None:
        given.parser.error("--port is for --serve")
    if not given.serve:
        outputs.require_no_terminal(given, "a report")


def _run(given: Given, tool: str) -> int:
    from ..collection.store import run
    return run(given.store, lambda: (_serve if given.serve else _report)(given, tool))


def _report(given: Given, tool: str) -> int:
    import gc
    from naplps.client import find
    from ..collection.printing import numbered
    from ..collection.store import open_to_read
    from ..report import making
    from ..report.sketch_workers import OBJECTS
    gc.set_threshold(OBJECTS)  # (a large store has many objects, all of which are needed)
    jobs = given.jobs or min(os.cpu_count() or 1, MOST_DRAWING)
    try:
        made = making.make(open_to_read(given.store), making.ReportOptions(
            given.store, given.output_file, find(tool), given.sketches or 0, given.sketches is None, jobs,
            given.timeout, given.force))
    except making.TooLarge as error:
        tell(str(error))
        return FAILED
    for path, why in made.missed:
        tell(f"{shown(path)}: {messages.NO_SKETCH.format(reason=why)}")
    if given.output_file is not None:
        output = Output(sys.stdout.buffer)
        output.line("%s: %s, %s of equal pages, %d of %s, %d bytes" % (
            shown(given.output_file), numbered(made.files, "file"), numbered(made.groups, "group"), made.sketches,
            numbered(made.pictures, "sketch", "sketches"), made.length))
        output.flush()
    return made.status


def _serve(given: Given, tool: str) -> int:
    from naplps.client import find
    from ..report import server
    from ..report.drawing import DrawingLimits
    from ..report import SERVED_LINES, SERVED_PLAYER, SERVED_SKETCH, SERVED_TEXT
    from ..report.sketch_workers import DrawingOptions
    output = Output(sys.stdout.buffer)

    def began(address: str) -> None:
        output.line(address)
        output.flush()
    most = DrawingLimits(SERVED_SKETCH, SERVED_TEXT, SERVED_LINES, SERVED_PLAYER)
    try:
        server.serve(given.store, DrawingOptions(find(tool), given.timeout, most), given.port or 0, began)
    except server.NotServed as error:
        tell(str(error))
        return FAILED
    return COMPLETE


COMMAND = Command("make a web page that shows what a scan found, or serve it to browsers", _parts, _run,
                  "report pages.db -o report.html", _check, group=COLLECTION_GROUP, rank=60)
