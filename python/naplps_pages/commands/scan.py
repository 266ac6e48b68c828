"""The command scan: the answers to all pages in folders, kept in a store; and several stores joined in a new one."""
from __future__ import annotations

from argparse import ArgumentTypeError
from typing import TYPE_CHECKING, List

from naplps.limits import MOST_PAGE

from ..console import CHANGED, COMPLETE
from . import (
    BUDGET, COLLECTION_GROUP, FILES, JOBS, OUTPUT, TIMEOUT, Argument, Command, Given, OneOf, Option, Part, number,
    skipped, store,
)

if TYPE_CHECKING:
    from ..collection.kept import Part as ScanPart

FOLDERS = Argument("folders", "FOLDER", "a folder of files, a pack of files (.zip, .tar, .tar.gz or .tgz), or a file; "
                   "with --merge, a STORE", "+", "folder | store")
OUT = OUTPUT._replace(title="STORE", is_required=True,
                      help="the store, a file; a store that is there is brought up to date")
MERGE = Option("--merge", "merge stores, such as those of the shards of a scan, into a new one", default=False)
FORCE = Option("--force", "with --merge, also take stores that aren't finished, and shards of which others are missing",
               default=False)
DASK = Option("--dask", "use the workers of Dask; the address of its scheduler, or its file", "SCHEDULER",
              completes=FILES, to="on")
MOST = Option("--max-size", f"skip files of more bytes; the default is {MOST_PAGE}", "BYTES",
              number(0, 1 << 62), default=MOST_PAGE, to="most")
RESCAN = Option("--rescan", "read and check all files again, also those that look unchanged", default=False)
NEAR = Option("--near", "also keep what `equal --nearly` needs", default=False)
PICTURES = Option("--pictures", "also keep what `equal --pictures` needs", default=False)


def part(text: str) -> ScanPart:
    """The part of a scan that is named K/N."""
    from ..collection.kept import MAX_PARTS, read_part
    try:
        return read_part(text)
    except ValueError:
        raise ArgumentTypeError(
            f"a part K/N, where N is from 1 to {MAX_PARTS} and K from 0 to N - 1, not {text!r}") from None


SHARD = Option("--shard", "take only shard K of N of the files; the first is 0/N", "K/N", part, to="part")


def _parts() -> List[Part]:
    return [FOLDERS, OUT, MERGE, FORCE, OneOf((JOBS, DASK)), MOST, SHARD, RESCAN, skipped("words", "repair"), NEAR,
            PICTURES, BUDGET, TIMEOUT]


def _check(given: Given) -> None:
    """Exits where an option of scans is given with --merge, or the other way round."""
    from ..outputs import STANDARD
    if given.output == STANDARD:
        given.parser.error("a store is a file, and isn't written to standard output")
    if given.force and not given.merge:
        given.parser.error("--force is for --merge")
    of_scans = (("--jobs", given.jobs), ("--dask", given.on), ("--shard", given.part), ("--rescan", given.rescan),
                ("--skip", given.skip), ("--near", given.near), ("--pictures", given.pictures))
    for word, is_there in of_scans if given.merge else ():
        if is_there:
            given.parser.error(f"--merge and {word} exclude each other")


def _run(given: Given, tool: str) -> int:
    from ..collection.store import run
    return run(given.output, lambda: _merge(given) if given.merge else _scan(given, tool))


def _merge(given: Given) -> int:
    from ..collection.merge import merge
    return COMPLETE if merge(given.output, list(map(store, given.folders)), given.force) else CHANGED


def _scan(given: Given, tool: str) -> int:
    from naplps.client import find
    from ..collection.kept import skipped_by
    from ..collection.pool import processors
    from ..collection.protocol import Retry, WorkerOptions
    from ..collection.scan import ScanOptions, scan
    options = WorkerOptions(find(tool), given.budget, given.timeout, given.most, Retry(
        again=given.rescan, near=given.near, pictures=given.pictures))
    return scan(ScanOptions(given.folders, given.output, given.jobs or processors(), options, given.part,
                            given.on, refused=skipped_by(given.skip)))


COMMAND = Command("check all files in folders, and keep the answers in a store; or merge stores", _parts, _run,
                  "scan archive -o pages.db", _check, group=COLLECTION_GROUP, rank=20)
