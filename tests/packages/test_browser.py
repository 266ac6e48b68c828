"""dist/browser has the page that is made of these sources and of the kept module, and players have the scripts that are
made of browser/. test_kept.py compares the module."""
import shutil
import subprocess
import sys
from pathlib import Path

import pytest

from dev.layout import TOP
from dev.packaging.for_browsers import FOLDER, MADE, PAGE, make_page
from dev.packaging.for_pages import PLAYER, player_scripts
from naplps_pages import player

RENEW = "(python3 -m dev.browser --page makes it anew)"
# What the page is made of, beside VERSION.
SOURCES = ("browser", "python/naplps", "python/naplps_pages", "dev", "dist/browser")
ELSEWHERE = {"TZ": "Asia/Kathmandu", "LC_ALL": "C", "PYTHONHASHSEED": "7", "PYTHONDONTWRITEBYTECODE": "1"}


@pytest.mark.parametrize("name", [PAGE, MADE.name])
def test_page_is_that_of_these_sources(name: str) -> None:
    """The page, and MADE, have the bytes that are made of these sources."""
    assert (FOLDER / name).read_bytes() == make_page()[name].data, (
        f"{FOLDER / name} has other bytes than are made of these sources {RENEW}")


@pytest.mark.parametrize("name", [player.DRAWING, player.DOTS])
def test_script_of_players_is_that_of_these_sources(name: str) -> None:
    """The script has the bytes that are made of browser/."""
    path = PLAYER / name
    assert path.read_text("utf-8") == player_scripts()[path], f"{path} isn't that of these sources {RENEW}"


def test_page_of_a_copy(tmp_path: Path) -> None:
    """A copy in another folder, time zone and locale gives the same page."""
    top = tmp_path / "another folder"
    for name in SOURCES:
        shutil.copytree(TOP / name, top / name, ignore=shutil.ignore_patterns("__pycache__"))
    shutil.copy(TOP / "VERSION", top)
    result = subprocess.run([sys.executable, "-m", "dev.browser", "--page", "made.html"], cwd=top, env=ELSEWHERE,
                            stdout=subprocess.PIPE, stderr=subprocess.STDOUT)
    assert result.returncode == 0, f"dev.browser in a copy: {result.stdout!r}"
    assert (top / "made.html").read_bytes() == make_page()[PAGE].data, "a copy gives another page"
