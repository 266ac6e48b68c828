"""A folder of pages in which a hostile file has the name of each module that the tool imports."""
import ast
import glob
import os
import sys
from pathlib import Path
from typing import Set, Tuple

from command import PACKAGES
from packers import pack
from samples import OUTSIDE, POINT, SPELLED
from scans import tree

HOSTILE = """
with open(%r, "a") as file:
    file.write(__name__ + "\\n")
raise ImportError(__name__)
"""


def modules() -> Set[str]:
    """The modules that the tool imports, and all others of the standard library where this Python tells their names."""
    names = set(getattr(sys, "stdlib_module_names", ())) | {"sitecustomize", "usercustomize", "naplps_pages"}
    for path in glob.glob(os.path.join(PACKAGES, "naplps_pages", "**", "*.py"), recursive=True):
        with open(path, encoding="utf-8") as source:
            for node in ast.walk(ast.parse(source.read())):
                if isinstance(node, ast.Import):
                    names |= {alias.name.split(".")[0] for alias in node.names}
                elif isinstance(node, ast.ImportFrom) and not node.level:
                    names.add(str(node.module).split(".")[0])
    return names


def hostile_folder(tmp_path: Path) -> Tuple[str, str]:
    """A folder of pages with a hostile file for each module; and the file in which they note that they ran."""
    note = os.path.join(str(tmp_path), "ran")
    lines = (HOSTILE % note).encode()
    assert {"resource", "signal", "sqlite3", "socket", "hashlib", "multiprocessing"} <= modules()
    folder = tree(os.path.join(str(tmp_path), "hostile"), {
        **{name + ".py": lines for name in modules()}, "a.nap": POINT, "b.nap": SPELLED, "c.nap": OUTSIDE})
    pack(os.path.join(folder, "d.tar"), {"e.nap": POINT})
    return folder, note
