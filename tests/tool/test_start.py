"""How the command begins and ends: with little memory, and with a signal that comes at once or last."""
import dis
import os
import re
import signal
import subprocess
import sys
import time
from pathlib import Path

import pytest

from command import COMMAND, PACKAGES, file
from samples import POINT

# KiB of address space: from what Python itself needs to what a scan does.
LITTLE = (16_000, 18_000, 20_000, 22_000, 24_000, 26_000, 28_000, 30_000, 36_000, 44_000)
# Python itself ends so where memory lacks amid an exception ("Cannot recover from MemoryErrors"), at some size; or,
# where that is in a long function of its own imports, tries without an end, until its time of a processor is over.
DIED = (-signal.SIGSEGV, -signal.SIGABRT, -signal.SIGXCPU)
SECONDS = 20
# It tells so of an object that goes, where memory lacks even for calling what the tool has set for that.
IGNORED = b"Exception ignored "
COMMANDS = (["--version"], ["--help"], ["check", "@"], ["check", "--explain", "@"], ["list", "--json", "@"],
            ["show", "@"], ["show", "--format", "text", "@"], ["show", "@", "-o", "out.html"], ["fix", "@"], ["@"],
            ["scan", ".", "-o", "../x.db"], ["files", "no.db"], ["find", "word", "no.db"],
            ["files", "no.db", "--refused"],
            ["scan", "--merge", "no.db", "-o", "m.db"], ["report", "no.db", "-o", "r.html"],
            ["report", "no.db", "--serve"])


@pytest.mark.parametrize("words", COMMANDS, ids=" ".join)
def test_little_memory_is_one_line_and_status_3(naplps, tmp_path, words):
    folder = tmp_path / "folder"
    folder.mkdir()
    page = file(folder, "a.nap", POINT)
    words = [page if each == "@" else each for each in words]
    lines = died = ignored = 0
    for kib in LITTLE:
        limits = [f"--as={kib << 10}", f"--cpu={SECONDS}:{2 * SECONDS}"]
        said = subprocess.run(["prlimit", *limits, COMMAND, *words], cwd=folder, capture_output=True,
                              env=dict(os.environ, NAPLPS=naplps, PYTHONDONTWRITEBYTECODE="1"), timeout=3600)
        assert IGNORED in said.stderr or b"Traceback" not in said.stderr, (kib, said)
        lines += said.returncode == 3
        if said.returncode in DIED:
            died += 1
        elif IGNORED in said.stderr:
            ignored += 1
            assert said.returncode == 0 or b"naplps-pages: " in said.stderr, (kib, said)
        elif said.returncode in (3, 70):  # (the latter where Python raises another error for want of memory)
            assert said.stderr.startswith(b"naplps-pages: ") and said.stderr.count(b"\n") <= 2, (kib, said)
            assert said.returncode == 3 or b": the tool itself failed (" in said.stderr, (kib, said)
        else:
            assert (said.returncode, said.stderr) == (0, b""), (kib, said)
        for made in ("out.html", "../x.db"):
            if (folder / made).exists():
                (folder / made).unlink()
    assert died <= 1 and ignored <= 1
    assert lines >= (0 if words[0].startswith("-") else 1)  # (Python alone may need more than these two do)


def test_a_signal_that_comes_at_once_prints_no_traceback(naplps, tmp_path):
    """Before the first line of ours, which is no line 0, Python's own start may be caught; that isn't long."""
    page, tracebacks = file(tmp_path, "a.nap", POINT), 0
    for number in range(120):
        run = subprocess.Popen([COMMAND, "check", page], stdout=subprocess.PIPE, stderr=subprocess.PIPE,
                               env=dict(os.environ, NAPLPS=naplps))
        time.sleep(0.0008 * (number % 40))
        run.send_signal(signal.SIGINT)
        _, said = run.communicate()
        tracebacks += bool(re.search(rb'File "[^"\n]*naplps[^"\n]*", line [1-9]', said))
        assert run.returncode in (0, 1, -signal.SIGINT)
    assert not tracebacks


# Two moments that chance seldom finds: a signal as soon as the package takes it, and one behind the last answer.
AS_IT_IS_TAKEN = """
import os, signal
usual = signal.signal

def send(number, action):
    usual(number, action)
    if callable(action):
        signal.signal = usual
        os.kill(os.getpid(), number)

signal.signal = send
"""
BEHIND_THE_ANSWER = """
import atexit, os, signal
atexit.register(os.kill, os.getpid(), signal.SIGINT)
atexit.register(lambda: None)
"""
RUN = "import sys; from naplps_pages.__main__ import run; sys.argv[0] = 'naplps-pages'; run('naplps-pages')"


@pytest.mark.parametrize("before", (AS_IT_IS_TAKEN, BEHIND_THE_ANSWER), ids=("as it is taken", "behind the answer"))
def test_a_signal_at_a_chosen_moment_ends_the_tool_without_a_word(naplps, tmp_path, before):
    said = subprocess.run([sys.executable, "-c", before + RUN, "check", file(tmp_path, "a.nap", POINT)],
                          capture_output=True, env=dict(os.environ, NAPLPS=naplps, PYTHONPATH=PACKAGES))
    assert (said.returncode, said.stderr) == (-signal.SIGINT, b"")


AS_IT_GOES = """
from naplps.ending import ENDING

class Object:
    def __del__(self):
        raise %s

ENDING.watch()
Object()
"""
AMID_A_CALLBACK = """
import os, signal, time, weakref
from naplps.ending import ENDING, Stopped

class Object:
    pass

ENDING.watch()
it = Object()
watched = weakref.ref(it, lambda _: os.kill(os.getpid(), signal.SIGTERM))
try:
    del it
    time.sleep(60)
except Stopped as stopped:
    print(stopped.args[0] == signal.SIGTERM)
"""


@pytest.mark.parametrize("error, is_told", ((MemoryError, False), (ValueError, True)))
def test_an_exception_that_python_ignores_is_told_but_for_a_lack_of_memory(error, is_told):
    said = subprocess.run([sys.executable, "-c", AS_IT_GOES % error.__name__], capture_output=True, timeout=600,
                          env=dict(os.environ, PYTHONPATH=PACKAGES))
    assert (said.returncode, IGNORED in said.stderr, said.stderr == b"") == (0, is_told, not is_told)


def test_a_signal_amid_a_callback_comes_again():
    """Python ignores what is raised there, and would print it."""
    said = subprocess.run([sys.executable, "-c", AMID_A_CALLBACK], env=dict(os.environ, PYTHONPATH=PACKAGES),
                          capture_output=True, timeout=600)
    assert (said.returncode, said.stdout, said.stderr) == (0, b"True\n", b"")


HANDLERS = ("naplps_pages/__main__.py", "naplps_pages/cli.py", "naplps_pages/page_session.py", "naplps/ending.py")


@pytest.mark.skipif(not hasattr(dis, "_parse_exception_table"), reason="this Python has no tables of handlers")
@pytest.mark.parametrize("name", HANDLERS + (COMMAND,), ids=os.path.basename)
def test_a_handler_needs_no_memory(name):
    """Python numbers the instruction that failed for some handlers; beyond 256 that number needs memory, and where
    there is none it tries without an end. These functions are left by every exception."""
    path = Path(PACKAGES, name)
    codes = [compile(path.read_text("utf-8"), path, "exec")]
    for code in codes:
        codes += [each for each in code.co_consts if hasattr(each, "co_code")]
        beyond = [entry for entry in dis._parse_exception_table(code) if entry.lasti and entry.end // 2 > 256]
        assert not beyond, (code.co_name, beyond)
