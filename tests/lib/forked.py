"""Runs naplps-pages in a process that is forked from this one, which is faster than a new interpreter."""
import collections
import io
import os
import random
import signal
import sys
import time
import traceback

from command import COMMAND, bare
from naplps_pages.__main__ import run

Said = collections.namedtuple("Said", "status out err")
# What a command may end with.
STATUSES = (0, 1, 3)
HANGS = "hangs"


def forked(words, folder, program, seconds=900, keeps=""):
    """What the command with these words says in a folder, and its status; a negative one is a signal's."""
    return ended(begun(words, folder, program, keeps), folder, seconds)


def begun(words, folder, program, keeps=""):
    """The process of a command with these words, which says something in a folder."""
    for name in ("out", "err"):
        if os.path.exists(os.path.join(folder, name)):
            os.unlink(os.path.join(folder, name))
    child = os.fork()
    if not child:
        _be(bare([*words], folder, keeps), folder, program, os.path.join(folder, "out"), os.path.join(folder, "err"))
    return child


def ended(child, folder, seconds=900):
    """What the process said, once it has ended."""
    out, err = os.path.join(folder, "out"), os.path.join(folder, "err")
    end = time.monotonic() + seconds
    while True:
        pid, status = os.waitpid(child, os.WNOHANG)
        if pid:
            break
        if time.monotonic() > end:
            os.kill(child, signal.SIGKILL)
            os.waitpid(child, 0)
            return Said(HANGS, b"", b"")
        time.sleep(0.001)
    with open(out, "rb") as said, open(err, "rb") as told:
        return Said(os.waitstatus_to_exitcode(status) if hasattr(os, "waitstatus_to_exitcode") else status >> 8,
                    said.read(), told.read())


def _be(words, folder, program, out, err):
    """The process."""
    status = 99
    try:
        for number, path in ((1, out), (2, err)):
            descriptor = os.open(path, os.O_WRONLY | os.O_CREAT | os.O_TRUNC, 0o600)
            os.dup2(descriptor, number)
            os.close(descriptor)
        sys.stdout = io.TextIOWrapper(open(1, "wb", closefd=False), "utf-8")
        sys.stderr = io.TextIOWrapper(open(2, "wb", closefd=False), "utf-8", errors="backslashreplace")
        os.chdir(folder)
        os.environ["NAPLPS"] = program
        sys.argv = [COMMAND, *words]
        run(COMMAND)
    except SystemExit as end:
        status = end.code or 0
    except BaseException:  # pylint: disable=broad-except
        traceback.print_exc()
    finally:
        try:
            sys.stdout.flush()
            sys.stderr.flush()
        finally:
            os._exit(status)


def require_told(said, words, what=""):
    """The status is one of those that the manual page has, nothing is a traceback, and nothing is raw on a terminal."""
    assert said.status in STATUSES, (what, words, said)
    for text in (said.out, said.err):
        assert b"Traceback" not in text and b"the tool itself" not in text, (what, words, said)
        raw = [each for each in text.replace(b"\0", b"") if each < 32 and each != 10 or each == 127]
        assert not raw, (what, words, said)
    assert said.status != 3 or said.err.startswith(b"naplps-pages: "), (what, words, said)


def rounds(usual):
    """The random numbers of each round: a number of rounds, or as many as there is time for if FUZZ_SECONDS says so.

    FUZZ_SEED gives other ones. Each round's own seed is its number after that.
    """
    seconds, seed = float(os.environ.get("FUZZ_SECONDS", "0")), os.environ.get("FUZZ_SEED", "1")
    end = time.monotonic() + seconds
    number = 0
    while number < usual or time.monotonic() < end:
        yield "%s/%d" % (seed, number), random.Random("%s/%d" % (seed, number))
        number += 1


def counted(counts, name):
    """Tells how often a command ended how, where a run was asked for by time."""
    if os.environ.get("FUZZ_SECONDS"):
        with open(os.environ.get("FUZZ_COUNTS", "/dev/stderr"), "a", encoding="ascii") as file:
            file.write("%s: %d\n" % (name, sum(counts.values())))
            for key, number in sorted(counts.items(), key=str):
                file.write("  %s: %d\n" % (key, number))
