"""A page with the element <naplps-page>: its script, and what elements report."""
import subprocess
import sys
from pathlib import Path

from command import TOP

# A page with elements, and the script that notes what they report.
PAGE = """<!doctype html><html lang="en"><meta charset="utf-8"><title>pages</title>
<script src="ready.js"></script><script src="naplps-page.js"></script><body>%s</body></html>"""
READY = """window.told = [];
const hear = ({type, target, message}) => {
  if (target.localName !== "naplps-page") return;
  told.push([target.id, type, message || ""]);
  if (told.length >= document.querySelectorAll("naplps-page").length) document.body.dataset.ready = "yes";
};
for (const name of ["load", "error"]) document.addEventListener(name, hear, true);"""


def make_element(path: Path) -> None:
    """Makes the script of the element."""
    subprocess.run([sys.executable, "-m", "dev.browser", "--element", str(path)], check=True, cwd=TOP)


def make_page(folder: Path, name: str, elements: str) -> None:
    """Makes a page with elements, beside the script that notes what they report."""
    (folder / "ready.js").write_text(READY, "utf-8")
    (folder / name).write_text(PAGE % elements, "utf-8")
