"""In a checkout, with no program named, nothing of the current folder runs, whatever the environment says."""
import os
import re
import shutil
import subprocess
import sys

import pytest

import naplps as nap
from command import TOP, file
from libraries import library_path, made_up
from naplps import backends
from naplps import client as surroundings
from naplps.backends import SONAME
from naplps.client import Client
from samples import POINT
from scans import tree
from shell_variables import FUNCTIONS, variables

SAYINGS = {"PATH": (":@", ".:/usr/bin:/bin", "@", ""), "SHELLOPTS": ("noexec:xtrace", "@"),
           "BASHOPTS": ("failglob", "@"), "IFS": ("/", "0123456789"), "PYTHONMALLOC": ("debug",)}
# Each may be a path of a hostile file or folder.
OTHERS = ("@/evil", ".")


@pytest.fixture(scope="module")
def checkout(tmp_path_factory):
    """A copy of the sources with the kept program, as a clone has it."""
    if not os.path.isdir(os.path.join(TOP, "crates")):
        pytest.skip("not tried: this isn't a checkout")
    top = tmp_path_factory.mktemp("checkout")
    for name in ("crates", "dev", "dist", "pages", "python", "scripts"):
        unwanted = shutil.ignore_patterns("out", "__pycache__")
        shutil.copytree(os.path.join(TOP, name), top / name, ignore=unwanted)
    for name in ("naplps", "crates.txt", "VERSION"):
        shutil.copy(os.path.join(TOP, name), top)
    said = subprocess.run([str(top / "naplps"), "--version"], capture_output=True, env={"PATH": "/usr/bin:/bin"})
    if said.returncode == 70:
        pytest.skip("not tried: the kept program isn't that of the sources")
    return str(top)


@pytest.fixture(scope="module")
def hostile(tmp_path_factory):
    """A folder of strangers: a page, and a file for each program of the system, which notes that it ran."""
    top = str(tmp_path_factory.mktemp("strangers"))
    folder, ran = os.path.join(top, "folder"), os.path.join(top, "ran")
    tree(folder, {"a.nap": POINT, "sitecustomize.py": b"open(%r, 'w')\n" % ran.encode()})
    evil = file(folder, "evil", b"#!/bin/sh\necho $0 >> %s\n" % ran.encode())
    os.chmod(evil, 0o755)
    for name in {each for at in ("/usr/bin", "/bin") for each in os.listdir(at)} | {"naplps", "rt", "rsvg-convert"}:
        os.link(evil, os.path.join(folder, name))
    return folder, ran


def tried(checkout, hostile, environment):
    """Whether the command answers as ever, and nothing of the folder ran."""
    folder, ran = hostile
    environment = {name: text.replace("@", folder) for name, text in environment.items()}
    said = subprocess.run([os.path.join(checkout, "pages", "naplps-pages"), "check", "a.nap"], cwd=folder,
                          env={"PATH": "/usr/bin:/bin", **environment}, capture_output=True)
    assert (said.returncode, said.stdout, said.stderr) == (0, b"accepted 1 entries\n", b""), environment
    assert not os.path.exists(ran), (environment, open(ran, encoding="utf-8").read())


@pytest.mark.parametrize("first", range(4))
def test_no_variable_has_anything_of_the_current_folder_run(checkout, hostile, first):
    for name in variables()[first::4]:
        for saying in SAYINGS.get(name, OTHERS):
            tried(checkout, hostile, {name: saying})


def test_neither_all_of_them_nor_functions_of_the_environment(checkout, hostile):
    quiet = {name: "@/evil" for name in variables() if name not in SAYINGS}
    tried(checkout, hostile, {**quiet, "PATH": ":@:.:/usr/bin"})
    for name in ("BASH_FUNC_%s%%%%", "BASH_FUNC_%s()"):
        tried(checkout, hostile, {name % each: "() { echo function >> %s; }" % hostile[1] for each in FUNCTIONS})


def test_the_module_runs_nothing_either(checkout, hostile):
    lines = "import sys; sys.path[:0] = [%r]; import naplps; print(naplps.backend().kind, naplps.check(%r))" % (
        os.path.join(checkout, "python"), POINT)
    for path in (":/usr/bin:/bin", ".:/usr/bin:/bin", hostile[0]):
        said = subprocess.run([sys.executable, "-I", "-S", "-B", "-c", lines], cwd=hostile[0], capture_output=True,
                              env={"PATH": path, "BASH_ENV": "./evil", "LD_LIBRARY_PATH": ":/opt/nowhere"})
        assert (said.stdout, said.stderr) == (b"program 1\n", b"") and not os.path.exists(hostile[1])


def test_a_child_has_nothing_that_shells_interpreters_or_the_loader_read(fake, tmp_path, monkeypatch):
    note = str(tmp_path / "note")
    for name in variables():
        if name != "PATH":
            monkeypatch.setenv(name, "x")
    monkeypatch.setenv("BASH_FUNC_find%%", "() { :; }")
    monkeypatch.setenv("LC_TIME", "C")
    program = Client(fake("open(%r, 'w').write(repr(dict(os.environ)))" % note))
    program.ask("check", POINT)
    program.close()
    with open(note, encoding="utf-8") as had:
        names = {name for name in re.findall(r"'([^']*)': '", had.read()) if not name.startswith("LC_")}
    assert {"PATH", "HOME"} <= names <= {"PATH", *surroundings.KEPT}
    assert surroundings.for_child()["PATH"] == "/usr/bin:/bin"


@pytest.mark.parametrize("mode, owner, runs", [
    (0o755, 0, True), (0o777, 0, False), (0o775, 0, True), (0o1777, 0, False), (0o755, 12345, False)])
def test_a_program_to_which_others_can_write_isnt_run(tmp_path, monkeypatch, mode, owner, runs):
    """The group is root's, or the user's own."""
    if os.geteuid():
        pytest.skip("not tried: only root gives files away")
    for what in ("folder", "folder/naplps"):
        folder = tmp_path / what.replace("/", "-") / "folder"
        folder.mkdir(parents=True)
        program = file(folder, "naplps", b"#!/bin/sh\n")
        os.chmod(program, 0o755)
        os.chmod(folder.parent / what, mode)
        os.chown(folder.parent / what, owner, 0)
        monkeypatch.setenv("PATH", str(folder))
        path, why = surroundings.on_path("naplps")
        assert path == (program if runs else None)
        assert why == ("" if runs else f"{program} {surroundings.OTHERS}")
    os.chown(program, 0, 12345)
    os.chmod(program, 0o775)
    assert not surroundings.is_ours(program)


@pytest.mark.parametrize("name", ["@", "/proc/self/cwd", "@/../here", "@/../link", "@/"])
def test_the_current_folder_by_any_name(tmp_path, monkeypatch, name):
    here = tree(str(tmp_path / "here"), {"naplps": b"#!/bin/sh\n"})
    os.chmod(os.path.join(here, "naplps"), 0o755)
    os.symlink(here, tmp_path / "link")
    monkeypatch.chdir(here)
    monkeypatch.setenv("PATH", name.replace("@", here))
    assert surroundings.on_path("naplps") == (None, "")
    monkeypatch.chdir("/")
    if name != "/proc/self/cwd":
        assert surroundings.on_path("naplps")[0] is not None


def test_no_library_of_the_loaders_folders(tmp_path, monkeypatch, naplps):
    """LD_LIBRARY_PATH with an empty name is the current folder, in which a library's constructor waits."""
    monkeypatch.setattr(backends, "_found", None)
    monkeypatch.setattr(backends, "FOLDER", str(tmp_path / "lib" / "naplps"))
    monkeypatch.setattr(surroundings, "LIBRARIES", (str(tmp_path / "system"),))
    monkeypatch.setenv("NAPLPS", naplps)
    monkeypatch.delenv("NAPLPS_LIBRARY", raising=False)
    monkeypatch.chdir(tmp_path)
    made_up(str(tmp_path), "0")
    for path in (":", ".", str(tmp_path), ":/opt/nowhere"):
        monkeypatch.setenv("LD_LIBRARY_PATH", path)
        monkeypatch.setattr(backends, "_found", None)
        assert nap.backend().kind == "program" and nap.check(POINT) == 1
    os.mkdir(tmp_path / "system")
    shutil.copy(library_path(), tmp_path / "system")
    monkeypatch.setattr(backends, "_found", None)
    assert nap.backend() == ("library", str(tmp_path / "system" / SONAME)) and nap.is_plain(b"")
    os.chmod(tmp_path / "system", 0o777)
    monkeypatch.setattr(backends, "_found", None)
    assert nap.backend().kind == "program"
