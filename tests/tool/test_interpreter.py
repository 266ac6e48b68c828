"""No command runs code of the current folder, and no worker that of the environment's folders."""
import glob
import os
import signal
import subprocess
import sys
import urllib.request

import pytest

from command import PACKAGES
from hostile_modules import hostile_folder
from naplps_pages.interpreter import FOLDER, interpreter
from samples import POINT
from scans import start, tree


WORDS = [
    ["check", "a.nap"], ["check", "--explain", "c.nap"], ["check", "."], ["check", "d.tar!e.nap"], ["a.nap"],
    ["list", "a.nap"], ["canon", "a.nap"], ["show", "a.nap"], ["show", "--format", "png", "a.nap"],
    ["show", "--format", "html", "a.nap"], ["show", "--format", "text", "a.nap"], ["make", "--from", "a.nap"],
    ["diff", "a.nap", "a.nap"], ["fix", "c.nap"], ["fix", "--only", "carve", "c.nap"],
    ["scan", "a.nap", "-o", "../y.db"], ["scan", ".", "-o", "../x.db", "--skip", "words"],
    ["equal", "../x.db", "--verify"], ["equal", "../x.db"], ["files", "../x.db", "--refused"],
    ["files", "../x.db"], ["files", "../x.db", "--census"], ["canon", "../x.db", "-o", "../canonical"],
    ["scan", "--merge", "../x.db", "-o", "../m.db"], ["report", "../x.db", "-o", "../x.html"]]


def test_no_command_runs_code_of_the_current_folder(run, naplps, tmp_path):
    folder, ran = hostile_folder(tmp_path)
    for words in WORDS:
        said = run(words, cwd=folder)
        assert said.returncode in (0, 1) and b"Traceback" not in said.stderr, (words, said)
        assert not os.path.exists(ran), (words, open(ran).read())
    served = start(["report", "../x.db", "--serve"], naplps, cwd=folder)
    try:
        assert urllib.request.urlopen(served.stdout.readline().decode().strip()).status == 200
    finally:
        served.send_signal(signal.SIGTERM)
        served.communicate()
    assert not os.path.exists(ran)


@pytest.mark.parametrize("named", [":", ".", "../hostile", "/nowhere:"])
def test_no_command_runs_code_of_a_folder_that_the_environment_names(run, tmp_path, named):
    """An empty name is the current folder. What Python starts with, as `encodings`, is looked for there too."""
    folder, ran = hostile_folder(tmp_path)
    for words in (["--version"], ["check", "a.nap"], ["show", "a.nap"], ["scan", ".", "-o", "../x.db"]):
        said = run(words, cwd=folder, env={"PYTHONPATH": named})
        assert said.returncode in (0, 1) and b"Traceback" not in said.stderr, (words, said)
        assert not os.path.exists(ran), (words, open(ran).read())


TELLS = "import sys\ndef main(*numbers):\n    print(numbers, *sys.path, sep='\\n')\n"


def test_the_path_of_a_worker(tmp_path):
    own = tree(os.path.join(str(tmp_path), "own"), {"tells.py": TELLS.encode()})
    base = os.path.join(str(tmp_path), "base")
    user = subprocess.run([sys.executable, "-m", "site", "--user-site"], env=dict(os.environ, PYTHONUSERBASE=base),
                          capture_output=True, text=True).stdout.strip()
    assert user.startswith(base)
    hostile = tree(user, {"sitecustomize.py": b"print('ran')", "some.pth": b"import sys; print('ran')\n"})
    here = tree(os.path.join(str(tmp_path), "here"), {"sitecustomize.py": b"print('ran')"})
    said = subprocess.run(interpreter("tells", 3, 4, folder=own), capture_output=True, text=True, cwd=here, check=True,
                          env=dict(os.environ, PYTHONPATH=here, PYTHONUSERBASE=base, PYTHONSTARTUP=here))
    numbers, first, *others = said.stdout.split("\n")[:-1]
    assert (numbers, first) == ("(3, 4)", own)
    assert others and not {"", ".", here, hostile} & set(others)
    assert all("python" in os.path.basename(each) or os.path.basename(each) == "lib-dynload" for each in others)


def test_only_one_function_starts_interpreters():
    for path in glob.glob(os.path.join(FOLDER, "naplps_pages", "**", "*.py"), recursive=True):
        with open(path, encoding="utf-8") as source:
            text = source.read()
        # (the message of --on names it, and starts nothing)
        number = {"interpreter.py": 1, "cluster.py": 1}.get(os.path.basename(path), 0)
        assert text.count("sys.executable") == number, path


@pytest.mark.parametrize("path", [".:%s", ":%s", "%s:", "../here:%s"])
def test_no_program_of_the_current_folder_is_run(tmp_path, path):
    """Also where PATH names that folder, or none, which is the same."""
    ran, elsewhere = os.path.join(str(tmp_path), "ran"), os.path.join(str(tmp_path), "elsewhere")
    evil = b"#!/bin/sh\n>> %s\n" % ran.encode()
    here = tree(os.path.join(str(tmp_path), "here"), {"a.nap": POINT, "naplps": evil, "rsvg-convert": evil})
    for name in ("naplps", "rsvg-convert"):
        os.chmod(os.path.join(here, name), 0o755)
    os.mkdir(elsewhere)
    lines = ("import sys; sys.path[0] = %r\nfrom naplps import client\nfrom naplps_pages import pictures\n"
             "for find in (lambda: client.find('/nowhere/x/y'), lambda: pictures.png_of(b'<svg/>', 9)):\n"
             "    try:\n        print(find())\n    except (pictures.NoPng, client.NoProgram) as error:\n"
             "        print(error)\n" % PACKAGES)
    env = {**os.environ, "PATH": path % elsewhere, "PYTHONDONTWRITEBYTECODE": "1"}
    env.pop("NAPLPS", None)
    said = subprocess.run([sys.executable, "-c", lines], cwd=here, env=env, capture_output=True, check=True).stdout
    assert said.startswith(b"there is no program naplps: ") and b"\nPNG needs rsvg-convert, " in said
    assert not os.path.exists(ran)
