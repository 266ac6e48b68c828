"""What dist/browser keeps: the module of the library for browsers, the page naplps.html with it, and MADE, which says
what made them.

The module is compiled from the code of which the kept archive of the library was compiled in the same build. The page
is made of the module and of the sources, and so can be made anew without a proof. MADE has the checksums of the module,
of the page and of that archive, and the versions of what made the module."""
import hashlib
import shutil
from pathlib import Path
from typing import Dict

from dev.layout import TOP, File
from dev.packaging.for_pages import page
from dev.packaging.kept import ARCHIVE, CODE, NotProved, ask, file_sum, toolchain
from dev.packaging.made import made_of, read_made
from dev.packaging.webassembly import NotMade, Tools, make_module

FOLDER = TOP / "dist" / "browser"
MADE = FOLDER / "MADE"
MODULE = "naplps.wasm"
PAGE = "naplps.html"


def sum_of(data: bytes) -> str:
    """The checksum of bytes."""
    return hashlib.sha256(data).hexdigest()


def tools() -> Tools:
    """The toolchain's programs and Debian's binaryen; raises NotMade where one isn't there."""
    lowering = shutil.which("wasm-opt")
    if lowering is None:
        raise NotMade("binaryen isn't there (Debian: apt-get install binaryen)")
    try:
        return Tools(toolchain() / "toolchain" / "bin", lowering)
    except NotProved as error:
        raise NotMade(str(error)) from None


def make() -> Dict[str, File]:
    """The files of dist/browser, made from the code that the proved build of nap_c left; raises NotMade."""
    archive = CODE.parent / ARCHIVE
    if not CODE.is_file() or not archive.is_file():
        raise NotMade(f"there is no {CODE.relative_to(TOP)}, which `python3 -m dev.keep` leaves")
    used = tools()
    data = make_module(CODE, used)
    shown = page(data).encode("utf-8")
    lines = {MODULE: sum_of(data), ARCHIVE: file_sum(archive), "toolchain": ask("rt", "version"),
             **used.versions(), PAGE: sum_of(shown)}
    return {MODULE: File(data, 0o644), PAGE: File(shown, 0o644), MADE.name: made_of(lines)}


def make_page() -> Dict[str, File]:
    """The page, made of the sources and of the kept module, and MADE with its checksum; raises NotMade."""
    module, made = FOLDER / MODULE, read_made(MADE)
    if not module.is_file() or MODULE not in made:
        raise NotMade(f"there is no {module}, or {MADE} doesn't name it")
    shown = page(module.read_bytes()).encode("utf-8")
    return {PAGE: File(shown, 0o644), MADE.name: made_of({**made, PAGE: sum_of(shown)})}


def faults_of(archive: Path) -> Dict[str, str]:
    """What of dist/browser isn't as MADE says, or is of another library than the kept archive: a sentence by the name
    of the file."""
    made, found = read_made(MADE), {}
    for path in (FOLDER / MODULE, FOLDER / PAGE):
        if not path.is_file() or file_sum(path) != made.get(path.name):
            found[path.name] = f"{path} isn't that of MADE"
    if not archive.is_file() or file_sum(archive) != made.get(ARCHIVE):
        found[ARCHIVE] = f"{FOLDER} was made with another library than {archive}"
    return found
