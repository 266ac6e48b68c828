"""Scripts of the shell, as documents have them, in a folder that has the example pages."""
import os
import shutil
import subprocess
from pathlib import Path
from typing import Tuple

import pytest

from command import COMMAND, TOP


def archive_with_tool(folder: Path, program: str, patch: pytest.MonkeyPatch) -> str:
    """Makes a folder with the example pages; the tool is on the path."""
    shutil.copytree(os.path.join(TOP, "examples", "pages"), folder / "archive" / "pages")
    (folder / "bin").mkdir()
    (folder / "bin" / "naplps-pages").symlink_to(COMMAND)
    patch.setenv("NAPLPS", program)
    patch.setenv("PATH", f"{folder / 'bin'}{os.pathsep}{os.environ['PATH']}")
    return str(folder / "archive")


def scripted(folder: str, script: str, *words: str) -> Tuple[str, int]:
    """What a script prints, given these words, and its status; on standard error it says nothing."""
    said = subprocess.run(["sh", "-c", script, "sh", *words], cwd=folder, capture_output=True, text=True)
    assert said.stderr == ""
    return said.stdout, said.returncode


def shell(folder: str, script: str) -> str:
    """What a script prints that does what it has to, without the folder above its own."""
    printed, status = scripted(folder, script)
    assert status == 0
    return printed.replace(os.path.dirname(folder), "")
