"""Looks for what the tests need beside Python.

Without --install it prints what is missing and the line that installs it, and changes nothing. With --install, as root
on Debian, apt-get is asked once for all of it; how many packages that are, and what they take, is printed before.
apt-get prints what it does, and takes as long as it needs; if it fails, its status is that of this command.
Browsers are looked for with --browsers alone. Without --install the status is 0 where something is missing too: what
can't be tried then is reported by the tests.
"""
import os
import re
import shutil
import subprocess
import sys
from typing import Dict, List

from dev.words import parser_of

PYTHON = "/usr/lib/python3/dist-packages/"
# A file of each package of Debian that is needed.
NEEDED = {
    "gcc": "/usr/bin/cc", "libc6-dev": "/usr/include/stdio.h", "binutils": "/usr/bin/objcopy", "make": "/usr/bin/make",
    "python3-pytest": "/usr/bin/pytest-3", "python3-pytest-xdist": f"{PYTHON}xdist",
    "python3-hypothesis": f"{PYTHON}hypothesis", "mypy": "/usr/bin/mypy",
    "pyflakes3": "/usr/bin/pyflakes3", "librsvg2-bin": "/usr/bin/rsvg-convert", "sqlite3": "/usr/bin/sqlite3",
    "file": "/usr/bin/file", "parallel": "/usr/bin/parallel", "python3-distributed": f"{PYTHON}distributed",
    "python3-venv": "/usr/share/python-wheels", "python3-setuptools": f"{PYTHON}setuptools",
    "python3-wheel": f"{PYTHON}wheel", "dpkg-dev": "/usr/bin/dpkg-buildpackage", "debhelper": "/usr/bin/dh",
    "bash-completion": "/usr/bin/dh_bash-completion",
}
BROWSERS = {"chromium": "/usr/bin/chromium", "nodejs": "/usr/bin/node", "binaryen": "/usr/bin/wasm-opt",
            "python3-pytest-rerunfailures": f"{PYTHON}pytest_rerunfailures.py"}
INSTALL = ["apt-get", "install", "-y", "--no-install-recommends"]
# What apt-get says of a size, and how it is said here.
SIZES = ((r"(\d+) newly installed", " packages"), (r"Need to get (.+?) of archives", " to download"),
         (r"After this operation, (\S+ \S+) of additional", " on disk"))
# Seconds that apt-get may take to reckon sizes, which changes nothing.
RECKONING = 300


def missing(files: Dict[str, str]) -> List[str]:
    """The packages whose files aren't there."""
    return [package for package, file in files.items() if not os.path.exists(file)]


def environment() -> Dict[str, str]:
    """The environment of apt-get, which then asks nothing back."""
    return {**os.environ, "LC_ALL": "C", "DEBIAN_FRONTEND": "noninteractive"}


def size(packages: List[str]) -> str:
    """How many packages have to be installed with these, and what that takes, by apt-get's own lists."""
    try:
        text = subprocess.run([*INSTALL, "--print-uris", *packages], env=environment(), stdin=subprocess.DEVNULL,
                              stdout=subprocess.PIPE, stderr=subprocess.DEVNULL, encoding="utf-8", errors="replace",
                              timeout=RECKONING).stdout
    except subprocess.TimeoutExpired:
        text = ""
    found = [(re.search(pattern, text), unit) for pattern, unit in SIZES]
    return ", ".join(match[1] + unit for match, unit in found if match) or "packages of which apt-get has no list yet"


def run(words: List[str]) -> int:
    """Runs apt-get to its end, which is never forced: dpkg could be in the midst of a package. Its status."""
    status = subprocess.Popen(words, env=environment(), stdin=subprocess.DEVNULL).wait()
    return status if status >= 0 else 128 - status


def install(packages: List[str]) -> int:
    """Installs packages, once it is printed which; the status of apt-get."""
    run(["apt-get", "update"])  # (where some lists can't be read, the others may do)
    print(f"installing {' '.join(packages)}: with what they need {size(packages)}", flush=True)
    status = run([*INSTALL, *packages])
    if status:
        print(f"couldn't be installed: {' '.join(packages)}: apt-get ended with the status {status}", flush=True)
    return status


def main() -> int:
    """Looks for all, and installs it where that is asked; answers the status."""
    parser = parser_of(__doc__)
    parser.add_argument("--install", action="store_true", help="as root on Debian: install what is missing")
    parser.add_argument("--browsers", action="store_true", help="look for browsers too")
    words = parser.parse_args()
    packages = missing({**NEEDED, **(BROWSERS if words.browsers else {})})
    if not packages:
        return 0
    if words.install and os.geteuid() == 0 and shutil.which("apt-get"):
        return install(packages)
    print(f"missing for some tests: {' '.join(packages)}")
    if shutil.which("apt-get"):
        print(f"  with what they need {size(packages)}")
    print(f"  as root on Debian: apt-get update; {' '.join([*INSTALL, *packages])}", flush=True)
    return 0


if __name__ == "__main__":
    sys.exit(main())
