"""The sources of the module and the tool: what they import and call, and the texts that stand in two places."""
import ast
import collections
import glob
import os
import re
import subprocess
import sys
from pathlib import Path

import pytest

from command import COMMAND, LIB, PACKAGES, TOP, file
from lines import sample_line
from naplps.entry import members_of, read_line
from naplps.kinds import KINDS
from naplps_pages import refusals
from samples import POINT

TOOL = os.path.join(PACKAGES, "naplps_pages")
MODULE = os.path.join(PACKAGES, "naplps")
OF_THE_MODULE, OF_THE_TOOL = (sorted(glob.glob(os.path.join(folder, "**", "*.py"), recursive=True))
                              for folder in (MODULE, TOOL))
SOURCES = [*OF_THE_MODULE, *OF_THE_TOOL, COMMAND]
TESTS = [path for name in ("tool", "browser") for path in glob.glob(os.path.join(TOP, "tests", name, "*.py"))]


def parsed(path):
    return ast.parse(Path(path).read_text("utf-8"), path, feature_version=(3, 9))


def imported(path):
    """The modules that a source imports by their whole names."""
    for node in ast.walk(parsed(path)):
        if isinstance(node, ast.Import):
            yield from (each.name for each in node.names)
        elif isinstance(node, ast.ImportFrom) and not node.level:
            yield node.module or ""


@pytest.mark.parametrize("path", SOURCES, ids=lambda path: os.path.relpath(path, PACKAGES))
def test_the_standard_library_alone(path):
    known = getattr(sys, "stdlib_module_names", None)
    if known is None:
        pytest.skip("this Python doesn't tell the names of its library")
    for name in imported(path):
        assert name.split(".")[0] in known | {"naplps", "naplps_pages"}


@pytest.mark.parametrize("path", OF_THE_MODULE, ids=lambda path: os.path.relpath(path, PACKAGES))
def test_the_module_stands_below_the_tool(path):
    assert not [name for name in imported(path) if name.split(".")[0] == "naplps_pages"]
    depth = os.path.relpath(path, MODULE).count(os.sep) + 1
    assert all(node.level <= depth for node in ast.walk(parsed(path)) if isinstance(node, ast.ImportFrom))


def classes(path):
    """The names of the classes that a source has."""
    return [node.name for node in ast.walk(parsed(path)) if isinstance(node, ast.ClassDef)]


def helpers():
    """The helper modules that the tests of the tool import."""
    paths, sources = set(), TESTS
    while sources:
        named = {os.path.join(LIB, name + ".py") for path in sources for name in imported(path)}
        sources = [path for path in named - paths if os.path.exists(path)]
        paths.update(sources)
    return sorted(paths)


def test_no_class_name_stands_in_two_modules():
    found = collections.Counter(name for path in (*SOURCES, *TESTS, *helpers()) for name in classes(path))
    assert [name for name, number in found.items() if number > 1] == []


def starts(call, word):
    """Whether a call starts the program with this word."""
    lists = [each for each in call.args if isinstance(each, ast.List)]
    return any(isinstance(part, ast.Constant) and part.value == word for each in lists for part in each.elts)


def test_one_client_and_one_parser_of_answers():
    calls = [(os.path.relpath(path, PACKAGES), node) for path in SOURCES for node in ast.walk(parsed(path))
             if isinstance(node, ast.Call)]
    assert {path for path, call in calls if starts(call, "batch")} == {"naplps/client.py"}
    named = {path for path, call in calls if isinstance(call.func, ast.Name) and call.func.id == "AnswerParser"}
    assert named == {"naplps/client.py"}
    patterns = [path for path in SOURCES if "accepted (" in open(path, encoding="utf-8").read()]
    assert [os.path.relpath(path, PACKAGES) for path in patterns] == ["naplps/answers.py"]


# Runs a command from its first line to its end, and counts then: functions of ours that ran, files that these are in,
# modules of ours that were imported, and all modules.
COUNTED = """
import atexit, inspect, os, runpy, sys, threading
packages, command = map(os.path.realpath, sys.argv[1:3])
began, seen = set(sys.modules), set()
def hook(frame, event, _):
    code = frame.f_code
    is_function = code.co_flags & inspect.CO_OPTIMIZED and not code.co_name.startswith("<")
    if event == "call" and is_function and os.path.realpath(code.co_filename).startswith(packages):
        seen.add((code.co_filename, code.co_firstlineno))
def report():
    sys.setprofile(None)
    loaded = set(sys.modules) - began
    own = {name for name in loaded if name.split(".")[0] in ("naplps", "naplps_pages")}
    print(len(seen), len({path for path, _ in seen}), len(own), len(loaded), file=sys.stderr)
atexit.register(report)
sys.argv = sys.argv[2:]
threading.setprofile(hook)
sys.setprofile(hook)
runpy.run_path(command, run_name="__main__")
"""
# What a check may take: functions, files, modules of ours, and all modules.
MOST = (55, 16, 19, 60)


def test_a_check_takes_few_functions_and_modules_from_its_first_line_on(naplps, tmp_path):
    page = file(tmp_path, "page", POINT)
    ran = subprocess.run([sys.executable, "-BES", "-c", COUNTED, PACKAGES, COMMAND, "check", page],
                         env={**os.environ, "NAPLPS": naplps}, capture_output=True, text=True)
    assert (ran.returncode, ran.stdout) == (0, "accepted 1 entries\n"), ran.stderr
    counts = tuple(map(int, ran.stderr.split()))
    assert counts[0] > 20 and all(map(int.__le__, counts, MOST)), counts


# Modules of Python that take long to be imported, of which a first answer needs none.
SLOW = {"ast", "asyncio", "ctypes", "dataclasses", "email", "hashlib", "inspect", "json", "logging", "multiprocessing",
        "pathlib", "random", "shutil", "site", "socket", "sqlite3", "tempfile", "urllib"}
IMPORTED = """
import atexit, runpy, sys
atexit.register(lambda: print(*sys.modules, file=sys.stderr))
sys.argv = sys.argv[1:]
runpy.run_path(sys.argv[0], run_name="__main__")
"""


@pytest.mark.parametrize("word, needless", [
    ("check", SLOW), ("canon", SLOW), ("--version", SLOW | {"argparse", "subprocess", "naplps.client"})])
def test_a_first_answer_imports_no_module_that_takes_long(naplps, tmp_path, word, needless):
    page = file(tmp_path, "page", POINT)
    ran = subprocess.run([sys.executable, "-BES", "-c", IMPORTED, COMMAND, word, page],
                         env={**os.environ, "NAPLPS": naplps}, capture_output=True, text=True)
    loaded = set(ran.stderr.split())
    assert ran.returncode == 0 and {"naplps_pages.cli", "os", "typing"} <= loaded and not needless & loaded


# What apt-get prints before it installs.
APT_PRINTS = """0 upgraded, 112 newly installed, 0 to remove and 0 not upgraded.
Need to get 97.3 MB/98.1 MB of archives.
After this operation, 402 MB of additional disk space will be used.
"""
APT = f"""#!/bin/sh
echo "$@" >> "$0.asked"
printf '%%s' '{APT_PRINTS}'
case "$*" in update | *--print-uris*) exit 0 ;; *) exit %d ;; esac
"""
FIRST = "gcc libc6-dev binutils make python3-pytest python3-pytest-xdist python3-hypothesis mypy pyflakes3 " \
        "librsvg2-bin sqlite3 file parallel python3-distributed python3-venv python3-setuptools python3-wheel " \
        "dpkg-dev debhelper bash-completion"
BROWSERS = " chromium nodejs binaryen python3-pytest-rerunfailures"
SIZE = "with what they need 112 packages, 97.3 MB/98.1 MB to download, 402 MB on disk"


def tools(folder, *words, status=0):
    """What python3 -m dev.tools prints where none of the tools is there, and what it asks apt-get."""
    text = Path(TOP, "dev", "tools.py").read_text("ascii").replace('"/usr/', '"/nowhere/')
    for name, lines in (("tools.py", text), ("apt-get", APT % status)):
        path = os.path.join(str(folder), name)
        Path(path).write_text(lines, "ascii")
        os.chmod(path, 0o755)
    ran = subprocess.run([sys.executable, os.path.join(str(folder), "tools.py"), *words],
                         capture_output=True, text=True,
                         env=dict(os.environ, PYTHONPATH=TOP, PATH=f"{folder}:{os.environ['PATH']}"))
    assert (ran.returncode, ran.stderr) == (status, "")
    with open(os.path.join(str(folder), "apt-get.asked"), encoding="ascii") as asked:
        return ran.stdout, [line for line in asked.read().splitlines() if "--print-uris" not in line]


@pytest.mark.parametrize("words, packages", [([], FIRST), (["--browsers"], FIRST + BROWSERS)])
def test_missing_tools_are_printed_with_their_size_and_installed_only_when_that_is_asked(tmp_path, words, packages):
    line = f"install -y --no-install-recommends {packages}"
    printed, asked = tools(tmp_path, *words)
    assert asked == [] and printed == (f"missing for some tests: {packages}\n  {SIZE}\n"
                                       f"  as root on Debian: apt-get update; apt-get {line}\n")
    if os.geteuid() == 0:
        printed, asked = tools(tmp_path, "--install", *words)
        assert asked == ["update", line] and printed == f"{APT_PRINTS}installing {packages}: {SIZE}\n{APT_PRINTS}"


@pytest.mark.skipif(os.geteuid() != 0, reason="root alone installs")
def test_what_cannot_be_installed_is_named_in_one_line(tmp_path):
    printed, asked = tools(tmp_path, "--install", status=100)
    assert len(asked) == 2 and printed.splitlines()[-1] == (
        f"couldn't be installed: {FIRST}: apt-get ended with the status 100")


def members(value):
    """The names of all members of an object of JSON."""
    for name, each in value.items():
        yield from (name, *(members(each) if isinstance(each, dict) else ()))


def test_the_manual_page_names_each_member_of_json():
    text = Path(TOP, "man", "naplps-pages.1").read_text("utf-8")
    section = text[text.index(".Sh JSON"):text.index(".Sh ENVIRONMENT")]
    names = {name for words in KINDS for name in members(members_of(read_line(sample_line(words)), None))}
    with open(os.path.join(TOOL, "schema.py"), encoding="utf-8") as source:
        names.update(map("".join, re.findall(r"\"(\w+)\":|\b(\w+)=None|\[\"(\w+)\"\] =", source.read())))
    assert len(names) > 30
    for name in names:
        assert re.search(r"\b%s\b" % name, section), name


def manual_refusals():
    """The text of each refusal and of each code in the manual page, without its marks."""
    text = Path(TOP, "man", "naplps.1").read_text("utf-8")
    section = text[text.index(".Sh REFUSALS"):text.index(".Sh DIAGNOSTICS")]
    for title, body in re.findall(r"\.It ([^\n]+)\n(.*?)(?=\n\.It |\n\.El)", section, re.DOTALL):
        body = body.replace(".Fl Fl ", "--").replace(" Li ", " ").replace("\\-", "-")
        yield title, re.sub(r" ([.,;])", r"\1", " ".join(body.split()))


def test_the_manual_page_says_of_refusals_what_the_tool_says():
    some = [each for each in refusals.every() if not each.case]
    assert set(refusals.load()) == set(range(1, 23)) == {each.number for each in some}
    causes = {each: "Causes: " + each.causes if each.causes else "" for each in some}
    said = (r"\b(Keep (the|a whole) (page|file) as it is|(Otherwise|If that doesn't help,) keep it as it is|"
            r"((If it is (damaged|cut), |Otherwise )?look|Look) for (another|a longer) copy)\. ?")
    done = {each: re.sub(said, "", each.do).strip() for each in some}
    assert dict(manual_refusals()) == {
        each.code or each.title: re.sub(r", EDC[234], .*", ", the same.", each.means) if each.code
        else " ".join(part for part in (each.means, causes[each], done[each]) if part) for each in some}
