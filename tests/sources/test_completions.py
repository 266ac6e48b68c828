"""What bash completes of the words of naplps-pages, beside the options of a command."""
import subprocess
from pathlib import Path

import pytest

from dev.layout import TOP

SCRIPT = TOP / "completions" / "naplps-pages.bash"
LINE = ('compopt() { :; }; . "$0"; COMP_WORDS=(naplps-pages "$@"); COMP_CWORD=$#; _naplps_pages; '
        'printf "%s\\n" "${COMPREPLY[@]}"')


@pytest.mark.parametrize("words, completed", [
    ("show --format ", "svg png apng html text words"), ("diff --format h", "html"), ("make --format ", "page svg"),
    ("box --skip ", "words repair carve"), ("scan --skip ", "words repair"), ("equal --include t", "treated"),
    ("equal --skip ", "copies"), ("fix --only ", "repair split carve"), ("scan -j ", ""), ("report --port ", ""),
    ("show --baud ", ""),
    ("help s", "scan show"), ("help x", ""), ("ca", "canon"), ("he", "help"), ("mi", "mine.nap"),
    ("show mi", "mine.nap"), ("show -o mi", "mine.nap"), ("box --output mi", "mine.nap"),
    ("list --previous mi", "mine.nap"),
])
def test_values_names_and_files(tmp_path: Path, words: str, completed: str) -> None:
    (tmp_path / "mine.nap").touch()
    ran = subprocess.run(["bash", "-c", LINE, str(SCRIPT), *words.split(" ")], stdout=subprocess.PIPE, cwd=tmp_path,
                         encoding="utf-8", check=True)
    assert ran.stdout.split() == completed.split()
