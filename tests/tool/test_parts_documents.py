"""The recipes of docs/COLLECTIONS.md for many machines, and the commands that docs/measurements/README.md names."""
import os
import re
import shutil
import subprocess
import sys
from pathlib import Path

import pytest

from archive_shell import archive_with_tool, shell
from command import LIB, TOP
from samples import OUTSIDE, POINT, SPELLED, has
from scans import FAKE, NO_STORE, every_table, statuses, tree

SCRIPT = os.path.join(TOP, "examples", "scan-shards.sbatch")
SCALE = [sys.executable, "-m", "dev.measure_scale"]


RECIPES = dict(re.findall(r"<!-- parts: (\w+) -->\n```sh\n(.*?)```",
                          Path(TOP, "docs", "COLLECTIONS.md").read_text("utf-8"), re.DOTALL))


@pytest.fixture
def archive(naplps, tmp_path, monkeypatch):
    """A folder with pages, where the tool is on the path, and the store of one scan of them."""
    folder = archive_with_tool(tmp_path, naplps, monkeypatch)
    monkeypatch.setenv("HOME", str(tmp_path))
    kinds = (POINT, SPELLED, OUTSIDE, b"\x0fhello")
    tree(os.path.join(folder, "pages", "more"), {
        "%d/it's %d" % (at % 3, at): kinds[at % 4] + b"\x0f%d" % (at % 5) for at in range(200)})
    assert shell(folder, "naplps-pages scan pages -o %s" % (tmp_path / "one.db"))
    return folder


def one_scan(archive):
    return os.path.join(os.path.dirname(archive), "one.db")


def is_gnu_parallel():
    return has("parallel") and b"GNU parallel" in subprocess.run(
        ["parallel", "--version"], capture_output=True, stdin=subprocess.DEVNULL).stdout


def test_the_recipes_are_these():
    assert sorted(RECIPES) == ["equal", "parallel", "slurm"]


@pytest.mark.skipif(not is_gnu_parallel(), reason="there is no GNU parallel")
def test_parts_by_parallel(archive):
    told = shell(archive, RECIPES["parallel"]).splitlines()
    assert len(told) == 9 and told[-1].startswith("212 files: ") and told[-1].endswith("; from 8 stores")
    assert every_table(os.path.join(archive, "pages.db")) == every_table(one_scan(archive))
    assert shell(archive, RECIPES["equal"]) == shell(archive, f"naplps-pages equal {one_scan(archive)}") != ""
    assert sorted(os.listdir(archive)) == ["pages", "pages.db", *("shard-%d.db" % at for at in range(8))]


@pytest.fixture
def slurm(archive, tmp_path, monkeypatch):
    """A folder where the stub of sbatch is on the path, and the script is there."""
    (tmp_path / "jobs").mkdir()
    monkeypatch.setenv("SBATCH_STUB", str(tmp_path / "jobs"))
    os.symlink(os.path.join(LIB, "sbatch_stub.py"), str(tmp_path / "bin" / "sbatch"))
    shutil.copy(SCRIPT, archive)
    return archive


def test_parts_by_slurm(slurm, monkeypatch):
    monkeypatch.setenv("SHARDS", "5")                            # (64 take their time)
    words = RECIPES["slurm"].replace("sbatch --parsable", "sbatch --array=0-4 --parsable")
    assert shell(slurm, words) == "Submitted batch job 2\n"
    assert every_table(os.path.join(slurm, "pages.db")) == every_table(one_scan(slurm))
    for at in range(5):
        log = Path(slurm, "shard-%d.log" % at).read_text("utf-8")
        assert re.fullmatch(r"\d+ files: .* known, \d+ pages? asked about\n", log)
    # (tasks that are started again find all known)
    assert shell(slurm, "sbatch --array=3,1 scan-shards.sbatch pages") == "Submitted batch job 3\n"
    for at in (1, 3):
        first, second = Path(slurm, "shard-%d.log" % at).read_text("utf-8").splitlines()
        files = first.split()[0]
        assert second.startswith(files + " files: ") and second.endswith("; %s known, 0 pages asked about" % files)


def test_the_script_says_so_much_of_itself():
    text = Path(SCRIPT).read_text("utf-8")
    assert "#SBATCH --array=0-63\n" in text and "${SHARDS:-64}" in text
    assert subprocess.run(["sh", "-n", SCRIPT]).returncode == 0


def test_a_part_that_fails_is_not_merged(slurm, monkeypatch):
    monkeypatch.setenv("SHARDS", "3")
    tree(slurm, {"shard-1.db": b"what is this?" * 100})
    words = RECIPES["slurm"].replace("sbatch --parsable", "sbatch --array=0-2 --parsable")
    shell(slurm, words)
    assert not os.path.exists(os.path.join(slurm, "pages.db"))
    assert Path(slurm, "shard-1.log").read_text("utf-8") == f"naplps-pages: shard-1.db: {NO_STORE}\n"


def test_a_page_without_an_answer_ends_no_job(slurm, fake, monkeypatch):
    monkeypatch.setenv("SHARDS", "2")
    monkeypatch.setenv("NAPLPS", fake(FAKE))
    tree(os.path.join(slurm, "pages"), {"dies": b"die"})
    words = RECIPES["slurm"].replace("sbatch --parsable", "sbatch --array=0-1 --parsable")
    assert shell(slurm, words) == "Submitted batch job 2\n"
    assert statuses(os.path.join(slurm, "pages.db"))["dies"] == ("no answer", "the program ended with status 7")


def test_what_the_document_on_scale_names_is_there():
    text = Path(TOP, "docs", "measurements", "README.md").read_text("utf-8")
    text = text.split("## Large collections\n")[1].split("\n## ")[0]
    names = set(re.findall(r"python3 -m dev\.(\w+)", text))
    assert names >= {"measure_scale", "measure_pages"}
    for name in names:
        assert os.path.exists(os.path.join(TOP, "dev", name + ".py")), name
    help_text = subprocess.run([*SCALE, "--help"], capture_output=True, text=True, cwd=TOP, check=True).stdout
    options = set(re.findall(r"measure_scale (--[a-z]+)", text))
    assert options >= {"--rows", "--files"}
    for option in options:
        assert option in help_text, option


def test_the_figures_can_be_measured(naplps, tmp_path):
    for words in (["--rows", "2000", "--parts", "3"], ["--files", "300"]):
        result = subprocess.run([*SCALE, *words], capture_output=True, text=True, cwd=TOP,
                                env=dict(os.environ, TMPDIR=str(tmp_path)))
        assert (result.stderr, result.returncode) == ("", 0) and "NOT" not in result.stdout
        assert os.listdir(str(tmp_path)) == []
