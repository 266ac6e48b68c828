"""python3 -m dev.tools --install with a stand-in for apt-get, and what scripts/test-all makes of its status.

Nothing is installed, and root isn't needed: dev.tools takes itself for root's, finds no tool, and all its limits of
time are a thousandth of what they are.
"""
import shutil
import subprocess
import sys
from pathlib import Path
from typing import List, NamedTuple

import pytest

from dev.layout import TOP

# It notes each call as it ends, and takes longer than a thousandth of any limit.
APT_GET = r"""#!/bin/sh
case " $* " in *" --print-uris "*) exit 0 ;; esac
echo "apt-get is at work: $1"
sleep 2
echo "W: a warning of $1" >&2
echo "$1" >> "$CALLS"
[ "$1" != "${FAILS-}" ] || exit 100
"""
STARTER = """
import os, runpy, subprocess, sys
os.geteuid, os.path.exists = (lambda: 0), (lambda path: str(path).endswith("/apt-get"))
wait, communicate = subprocess.Popen.wait, subprocess.Popen.communicate
subprocess.Popen.wait = lambda self, timeout=None: wait(self, timeout and timeout / 1000)
subprocess.Popen.communicate = lambda self, input=None, timeout=None: communicate(
    self, input, timeout and timeout / 1000)
sys.argv[1:] = ["--install"]
runpy.run_module("dev.tools", run_name="__main__", alter_sys=True)
"""
# In place of dev.tools: apt-get failed. In place of all that would be run after it: it notes that it ran.
FAILING = "import sys\nopen('words', 'a').write(' '.join(sys.argv[1:]))\nsys.exit(100)\n"
NOTING = "#!/bin/sh\necho \"$0\" >> '{}'\n"


class Installed(NamedTuple):
    """The status of dev.tools --install, what it prints, and the calls of apt-get that came to their end."""

    status: int
    output: str
    calls: List[str]


def install(folder: Path, fails: str = "") -> Installed:
    """Runs it; a call of apt-get may fail."""
    calls, apt_get = folder / "calls", folder / "apt-get"
    calls.touch()
    apt_get.write_text(APT_GET, "ascii")
    apt_get.chmod(0o755)
    env = {"PATH": f"{folder}:/usr/bin:/bin", "CALLS": str(calls), "FAILS": fails, "PYTHONDONTWRITEBYTECODE": "1"}
    result = subprocess.run([sys.executable, "-c", STARTER], cwd=TOP, env=env, stdin=subprocess.DEVNULL,
                            stdout=subprocess.PIPE, stderr=subprocess.STDOUT, encoding="utf-8")
    return Installed(result.returncode, result.stdout, calls.read_text("ascii").split())


@pytest.mark.parametrize("fails, status, lines", [
    ("", 0, ["apt-get is at work: install", "W: a warning of install", "W: a warning of update"]),
    ("install", 100, ["W: a warning of install", "couldn't be installed"]), ("update", 0, []),
], ids=["nothing", "install", "update"])
def test_apt_get_has_all_the_time_that_it_needs(tmp_path: Path, fails: str, status: int, lines: List[str]) -> None:
    """What it prints is seen. A failed installation is told, and is the status; a failed update ends nothing, since
    other lists may have all that is needed."""
    result = install(tmp_path, fails)
    assert (result.status, result.calls) == (status, ["update", "install"]), result.output
    assert [line for line in lines if line not in result.output] == [], result.output


@pytest.mark.parametrize("options", [[], ["--without-proofs"]], ids=["proofs", "without-proofs"])
def test_test_all_tries_nothing_without_its_tools(tmp_path: Path, options: List[str]) -> None:
    """It has the status of dev.tools, and runs nothing else."""
    top, ran = tmp_path / "copy", tmp_path / "ran"
    shutil.copytree(TOP / "dev", top / "dev", ignore=shutil.ignore_patterns("__pycache__"))
    shutil.copytree(TOP / "scripts", top / "scripts")
    (top / "dev" / "tools.py").write_text(FAILING, "ascii")
    for name in ("rt", "pytest", "pytest-3"):
        (tmp_path / "bin").mkdir(exist_ok=True)
        (tmp_path / "bin" / name).write_text(NOTING.format(ran), "ascii")
        (tmp_path / "bin" / name).chmod(0o755)
    (top / "pytest.py").write_text(f"open({str(ran)!r}, 'w')\n", "ascii")  # (python3 -m pytest)
    env = {"PATH": f"{tmp_path}/bin:/usr/bin:/bin", "PYTHONDONTWRITEBYTECODE": "1"}
    result = subprocess.run([top / "scripts" / "test-all", *options, "--install"], cwd=top, env=env,
                            stdin=subprocess.DEVNULL, stdout=subprocess.PIPE, stderr=subprocess.STDOUT,
                            encoding="utf-8")
    assert result.returncode == 100, result.stdout
    assert "--install" in (top / "words").read_text("ascii")
    assert not ran.exists()
