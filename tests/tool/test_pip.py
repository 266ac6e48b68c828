"""The module and the tool as pip installs them, in an environment of their own and without a network."""
import os
import shutil
import subprocess
import sys

import pytest

from command import PACKAGES, TOP, file
from naplps.version import VERSION
from samples import OUTSIDE, POINT

WANTED = (("setuptools", "python3-setuptools"), ("wheel", "python3-wheel"), ("venv", "python3-venv"))


def environment(top, *options):
    """The folder of the commands of a new environment."""
    made = subprocess.run([sys.executable, "-m", "venv", *options, os.path.join(top, "venv")], capture_output=True,
                          text=True)
    if "ensurepip" in made.stdout:
        pytest.skip("not tried: venv can't be made (Debian: apt-get install python3-venv)")
    assert made.returncode == 0, made.stdout + made.stderr
    return os.path.join(top, "venv", "bin")


@pytest.fixture(scope="module")
def installed(tmp_path_factory):
    """The folder of the commands of an environment in which pip has installed a copy of the sources."""
    for name, package in WANTED:
        if subprocess.run([sys.executable, "-c", f"import {name}"], capture_output=True).returncode:
            pytest.skip(f"not tried: {sys.executable} has no {name} (Debian: apt-get install {package})")
    top = str(tmp_path_factory.mktemp("pip"))
    shutil.copytree(PACKAGES, os.path.join(top, "python"), ignore=shutil.ignore_patterns("__pycache__"))
    shutil.copy(os.path.join(TOP, "VERSION"), top)
    binary = environment(top, "--system-site-packages")
    words = [os.path.join(binary, "pip"), "install", "--no-build-isolation", "--no-index", "./python"]
    said = subprocess.run(words, cwd=top, capture_output=True, text=True)
    assert said.returncode == 0, said.stdout + said.stderr
    shutil.rmtree(os.path.join(top, "python"))
    os.unlink(os.path.join(top, "VERSION"))
    return binary


def run(installed, name, *words, **more):
    env = {key: value for key, value in os.environ.items() if key != "PYTHONPATH"}
    return subprocess.run([os.path.join(installed, name), *words], capture_output=True, cwd="/", env={**env, **more})


def test_the_module(installed, naplps):
    lines = ("import naplps, naplps.writer; print(naplps.__version__, naplps.backend().kind, naplps.check(b'\\x07'))\n"
             "print(naplps.svg(naplps.writer.PageWriter().text('A').made()).count('<text '))")
    said = run(installed, "python", "-c", lines, NAPLPS=naplps, NAPLPS_LIBRARY="")
    assert (said.stdout.decode(), said.stderr) == (f"{VERSION} program 1\n2\n", b"")


def test_the_tool(installed, naplps, tmp_path):
    assert run(installed, "naplps-pages", "--version").stdout.decode() == f"naplps-pages {VERSION}\n"
    good, bad = file(tmp_path, "good", POINT), file(tmp_path, "bad", OUTSIDE)
    said = run(installed, "naplps-pages", "check", good, bad, NAPLPS=naplps)
    assert said.stdout.decode() == f"{good}: accepted 1 entries\n{bad}: refused 10 Outside at 3\n"
    assert (said.stderr, said.returncode) == (b"", 1)
    assert b"What it means" in run(installed, "naplps-pages", "check", "--explain", bad, NAPLPS=naplps).stdout


def test_scans_and_reports(installed, naplps, tmp_path):
    os.mkdir(str(tmp_path / "pages"))
    file(tmp_path / "pages", "good", POINT)
    store, html = str(tmp_path / "pages.db"), str(tmp_path / "report.html")
    said = run(installed, "naplps-pages", "scan", str(tmp_path / "pages"), "-o", store, NAPLPS=naplps)
    assert said.stdout == b"1 file: 1 accepted (1 page), 0 refused; 0 known, 1 page asked about\n"
    said = run(installed, "naplps-pages", "report", store, "-o", html, NAPLPS=naplps)
    assert said.returncode == 0 and os.path.getsize(html) > 10_000


def test_a_wheel_reads_canonical_streams_without_the_program(installed, tmp_path):
    shutil.copytree(PACKAGES, tmp_path / "python", ignore=shutil.ignore_patterns("__pycache__"))
    shutil.copy(os.path.join(TOP, "VERSION"), tmp_path)
    words = [os.path.join(installed, "pip"), "wheel", "--no-build-isolation", "--no-index", "--no-deps", "-w", "wheels"]
    assert subprocess.run([*words, "./python"], cwd=tmp_path, capture_output=True).returncode == 0
    [wheel] = os.listdir(tmp_path / "wheels")
    assert wheel == f"naplps-{VERSION}-py3-none-any.whl"
    fresh = environment(str(tmp_path))
    said = run(fresh, "pip", "install", "--no-index", str(tmp_path / "wheels" / wheel))
    assert said.returncode == 0, said.stdout + said.stderr
    alone = {"PATH": "/nowhere", "NAPLPS": "/nowhere", "NAPLPS_LIBRARY": "/nowhere"}
    lines = "from naplps.canonical import read; print(*read(bytes.fromhex('0e215f0c07')), sep='\\n')"
    assert run(fresh, "python", "-I", "-c", lines, **alone).stdout == b"CLEAR pen=start\nBELL\n"
    said = subprocess.run([os.path.join(fresh, "python"), "-I", "-m", "naplps.canonical", "list"], env=alone, cwd="/",
                          input=b"\x0e\x21\x5f\x07", capture_output=True)
    assert (said.returncode, said.stdout, said.stderr) == (0, b"BELL\n", b"")
