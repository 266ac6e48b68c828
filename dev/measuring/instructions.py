"""Counts the instructions of a program by valgrind. They don't depend on what else the machine does."""
import os
import re
import shutil
import subprocess
from typing import List

from dev.layout import stop

VALGRIND = ("valgrind", "--tool=callgrind", "--callgrind-out-file=/dev/null")
COUNT = re.compile(r"Collected : (\d+)")


def counted(program: str, words: List[str], name: str) -> int:
    """The instructions of a command whose input is a file, and which has to succeed."""
    if shutil.which(VALGRIND[0]) is None:
        raise stop("valgrind isn't there")
    with open(name, "rb") as source:
        ran = subprocess.run([*VALGRIND, program, *words], stdin=source, stdout=subprocess.DEVNULL,
                             stderr=subprocess.PIPE, encoding="utf-8", errors="replace")
    found = COUNT.search(ran.stderr)
    if ran.returncode or found is None:
        raise stop(f"{program} {' '.join(words)}: status {ran.returncode}: {ran.stderr[-400:]}")
    return int(found[1])


def for_a_byte(program: str, words: List[str], name: str) -> float:
    """The instructions for each byte of a page, without those that an empty page takes."""
    return (counted(program, words, name) - counted(program, words, os.devnull)) / os.path.getsize(name)
