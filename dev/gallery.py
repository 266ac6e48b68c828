"""Makes examples/gallery.html, a report of the pages in examples.

NAPLPS names the program; without it the launcher's is taken.
"""
import base64
import os
import re
import shutil
import subprocess
import sys
import tempfile
import zlib
from pathlib import Path
from typing import List

from dev.layout import TOP, find_program, stop
from dev.words import parser_of

GALLERY = TOP / "examples" / "gallery.html"
COMMAND = TOP / "pages" / "naplps-pages"
FOLDERS = ("gallery", "pages")
# The time that all pages have: 1 January 1983.
TIME = 410227200
# What differs from one making to the next.
SCANNED = re.compile(r"<time>[^<]*</time> UTC by naplps [\d.]+")
PACKED = re.compile(r'(<script type="text/plain"[^>]*>)([^<]*)(</script>)')


def run(*words: str, folder: Path) -> None:
    """Runs naplps-pages; its messages are shown where it fails."""
    env = {**os.environ, "NAPLPS": str(find_program().absolute())}
    result = subprocess.run([COMMAND, *words], cwd=folder, env=env, stdout=subprocess.PIPE, stderr=subprocess.STDOUT)
    if result.returncode:
        raise stop(f"naplps-pages {words[0]} failed: {result.stdout.decode('utf-8', 'replace')}")


def make() -> bytes:
    """The report of all pages."""
    with tempfile.TemporaryDirectory() as name:
        folder = Path(name)
        (folder / "gallery").mkdir()
        for page in (page for part in FOLDERS for page in (TOP / "examples" / part).glob("*.nap")):
            copy = Path(shutil.copyfile(page, folder / "gallery" / page.name))
            os.utime(copy, (TIME, TIME))
        run("scan", "gallery", "-o", "pages.db", folder=folder)
        run("report", "pages.db", "-o", "gallery.html", folder=folder)
        return (folder / "gallery.html").read_bytes()


def parts(report: bytes) -> List[str]:
    """What a report has: its text without the time and the version, and what is packed in it."""
    text = SCANNED.sub("", report.decode("utf-8"))
    packed = [zlib.decompress(base64.b64decode(found[2])).decode("utf-8") for found in PACKED.finditer(text)]
    return [PACKED.sub(r"\1\3", text), *packed]


def main() -> int:
    """Makes the report."""
    parser_of(__doc__).parse_args()
    GALLERY.write_bytes(make())
    return 0


if __name__ == "__main__":
    sys.exit(main())
