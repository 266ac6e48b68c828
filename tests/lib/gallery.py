"""The pages of examples/gallery, which were made here.

Most are made of sources, as people write them, in examples/gallery/sources. The others were spelled byte by byte, since
their spelling is what they show: a letter that is signed by INCREMENTAL LINE, which is refused there; a city whose
windows are named by their places, and the same city by a macro and relative moves; and a map with macros for its signs.
"""
import os
import subprocess
from typing import Dict

from command import COMMAND, TOP

FOLDER = os.path.join(TOP, "examples", "gallery")
SOURCES = os.path.join(FOLDER, "sources")
# Those that were spelled, by the SHA-256 of their bytes; and those that a source makes, by its name.
SPELLED: Dict[str, str] = {
    "signature.nap": "64faf19e2178706b6d6e92ac7d0f4a7cf123363e7bdacb7b111e521f60ac50c6",
    "skyline, absolute.nap": "b99cede2adfbb3ec30a9af45e0bcce306aeff560fb11b61878ca28b75edf0af3",
    "skyline, relative.nap": "bfaf7e74c3c939812efda84c9199e9cf35a2253b9ae6c3910ae7215fa11341de",
    "weather.nap": "5cac0132552fe4369cceff59920416b129e08266518029c51e7eea12284865fa"}
AUTHORED: Dict[str, str] = {os.path.splitext(name)[0] + ".nap": name for name in sorted(os.listdir(SOURCES))}
NAMES = sorted([*SPELLED, *AUTHORED])


def stored(name: str) -> bytes:
    """A file of the gallery."""
    with open(os.path.join(FOLDER, name), "rb") as file:
        return file.read()


def authored(name: str) -> bytes:
    """The page that a source makes."""
    return subprocess.run([COMMAND, "make", os.path.join(SOURCES, AUTHORED[name])], stdout=subprocess.PIPE,
                          check=True).stdout


def pages() -> Dict[str, bytes]:
    """The pages that stand in the gallery, by the names of their files."""
    return {name: stored(name) for name in NAMES}
