"""The commands as a user runs them: output, messages, statuses."""
import errno
import json
import os
import resource
import shutil
import signal
import socket
import subprocess
import sys
from pathlib import Path

import pytest

from command import COMMAND, PACKAGES, TOP, file
from folders import files_in
from naplps.client import Client
from naplps_pages import new_files
from naplps_pages.cli import main
from naplps_pages.commands import MODULES
from naplps_pages.messages import IS_FOLDER
from packers import pack
from samples import BOMB, OUTSIDE, POINT, POINT_LINE
from scans import tree, wait_until

# Each command that takes pages, in the forms that read them.
COMMANDS = ["check", "check --explain", "list", "canon", "show", "show --format png", "show --format html",
            "show --format text", "show --format words", "make --from", "fix", "fix --only repair"]
# (a busy machine may take long, and no test asserts a time)
PATIENT = ["--timeout", "600"]
CANON = bytes.fromhex("0E215F265240404040404040")
BAD = b"naplps-pages: bad: refused 10 Outside at 3\n"


@pytest.fixture(autouse=True)
def environment(naplps, monkeypatch):
    """Whatever is started here asks the program."""
    monkeypatch.setenv("NAPLPS", naplps)


@pytest.fixture
def folder(tmp_path):
    """A folder with a page that is accepted and one that is refused."""
    file(tmp_path, "good", POINT)
    file(tmp_path, "bad", OUTSIDE)
    return str(tmp_path)


@pytest.mark.parametrize("words, out, told, status", [
    (["check", "good"], b"accepted 1 entries\n", b"", 0), (["check", "-"], b"accepted 1 entries\n", b"", 0),
    (["check", "good", "bad"], b"good: accepted 1 entries\nbad: refused 10 Outside at 3\n", b"", 1),
    (["check", "bad"], b"refused 10 Outside at 3\n", b"", 1), (["list", "good"], b"%s\n" % POINT_LINE.encode(), b"", 0),
    (["list", "good", "bad"], b"good: %s\n" % POINT_LINE.encode(), BAD, 1), (["canon", "good"], CANON, b"", 0),
    (["canon", "bad"], b"", BAD, 1)])
def test_answers(run, folder, words, out, told, status):
    said = run(words, POINT, cwd=folder)
    assert (said.stdout, said.stderr, said.returncode) == (out, told, status)


def test_check_in_json(run, tmp_path):
    file(tmp_path, "good", POINT)
    file(tmp_path, "bad", b"\x18")
    said = run(["check", "--json", "good", "bad", "none"], cwd=str(tmp_path))
    rows = [json.loads(line) for line in said.stdout.splitlines()]
    empty = {"number": None, "fault": None, "code": None, "place": None, "entries": None, "reason": None,
             "kind": None, "looks_like": None, "pages": None}
    assert rows == [
        {**empty, "name": "good", "status": "accepted", "entries": 1, "kind": "page"},
        {**empty, "name": "bad", "status": "refused", "number": 6, "fault": "LeftOut", "code": "CAN", "place": 0},
        {**empty, "name": "none", "status": "unread", "reason": "No such file or directory"}]
    assert said.returncode == 3
    assert said.stderr == b"naplps-pages: none: No such file or directory\n"


def test_list_in_json(run, tmp_path):
    path = file(tmp_path, "page", bytes.fromhex("0E 26 52 40 40 0F 41"))
    row = json.loads(run(["list", "--json", path]).stdout)
    look = {"words": [0, 0], "size": "normal", "given": None, "reverse": False, "underline": False, "wrap": False,
            "scroll": False}
    own = {"kind": "own-start", "value": None, "addresses": []}
    assert row["entries"] == 2 and row["status"] == "accepted"
    assert row["list"] == [
        {"kind": "POINT", "place": 5, "points": [[4194304, 4194304]], "pel": [0, 0], "colour": own},
        {"kind": "CHAR", "place": 6, "set": "primary", "character": 0x41, "colour": own, "text": look,
         "pen": {"at": "point", "point": [4194304, 4194304]}}]
    assert json.loads(run(["list", "--json", "-"], OUTSIDE).stdout)["list"] is None


def test_canonical_pages_are_put_into_a_folder_and_nothing_is_written_over(run, folder, to):
    for _ in range(2):                                          # (what is there with the same bytes stays)
        assert run(["canon", "good", "bad", "-o", to], cwd=folder).returncode == 1
        assert files_in(to) == {b"good": CANON}
    file(to, "good", b"mine")
    said = run(["canon", "good", "-o", to], cwd=folder)
    assert said.returncode == 3 and said.stderr.endswith(
        b"to/good: is there already with other bytes, and isn't written over\n")
    assert files_in(to) == {b"good": b"mine"}


def test_a_file_is_made_where_there_are_no_links(tmp_path, monkeypatch):
    def link(source, target):
        raise PermissionError(errno.EPERM, os.strerror(errno.EPERM))
    monkeypatch.setattr(os, "link", link)
    path = os.path.join(str(tmp_path), "page")
    new_files.put(path, b"one")
    new_files.put(path, b"one")
    with pytest.raises(new_files.NotWritten):
        new_files.put(path, b"two")
    assert files_in(tmp_path) == {b"page": b"one"}


def test_a_sketch_is_put_into_a_file_that_isnt_there(run, tmp_path):
    page, svg = file(tmp_path, "page", POINT), os.path.join(str(tmp_path), "page.svg")
    wanted = run(["show", page]).stdout
    for _ in range(2):                                          # (what is there with the same bytes stays)
        assert wanted.startswith(b"<svg ") and run(["show", page, "-o", svg]).returncode == 0
        assert files_in(tmp_path) == {b"page": POINT, b"page.svg": wanted}
    said = run(["show", page, "-o", page])
    assert (said.stderr.decode(), said.returncode) == (
        "naplps-pages: %s: is there already with other bytes, and isn't written over\n" % page, 3)
    assert run(["show", page, "-o", "/dev/null"]).returncode == 0 and not os.path.isfile("/dev/null")
    said = run(["show", page, "-o", os.path.join(str(tmp_path), "none", "page.svg")])
    assert said.returncode == 3 and said.stderr.endswith(b"none/page.svg: No such file or directory\n")
    assert files_in(tmp_path) == {b"page": POINT, b"page.svg": wanted}


# Words that are wrong, and how the line that says so ends.
WRONG = [
    *((words, "") for words in (
        ["check"], ["check", "--jso", "x"], ["check", "a", "--frob"], ["canon", "a", "b"], ["show", "a", "b"],
        ["show", "a", "b", "--format", "html"], ["show", "a", "--format", "gif"], ["show", "a", "--json"],
        ["show", "a", "--scale", "2"], ["show", "a", "--format", "png", "--scale", "9"], ["show", "a", "--baud", "300"],
        ["show", "a", "--format", "png", "--guess"], ["show", "a", "-o", "x.html", "--scale", "2"], ["make", "a", "b"],
        ["make", "a", "--from", "--format", "svg"], ["make", "-", "-", "-o", "x"], ["fix", "a", "--only", "cut"],
        ["fix", "a", "-o", "-"], ["fix", "a", "--min-entries", "0"], ["diff", "a"], ["diff", "a", "b", "c"],
        ["diff", "a", "b", "--json", "--format", "html"], ["check", "a", "--budget", "x"],
        ["check", "a", "--timeout", "0"], ["check", "-", "-"], ["check", "-", "--previous", "-"])),
    *((words, ": the name is empty") for words in (
        ["check", ""], ["list", "a", ""], ["canon", "a", "-o", ""], ["show", "a", "-o", ""], ["fix", "a", "-o", ""],
        ["make", "a", "-o", ""], ["diff", "a", ""], ["scan", "", "-o", "s"], ["scan", "a", "-o", ""],
        ["scan", "a", "-o", "s", "--dask", ""], ["scan", "--merge", "", "-o", "s"], ["equal", ""], ["equal", "s", ""],
        ["files", ""], ["report", "s", "-o", ""], ["report", "", "--serve"], ["find", "word", ""],
        ["box", "", "-o", "b"])),
    *((["check", "a", option, text], f"error: argument {option}: a number {bounds}, not '{text}'") for (
        option, text, bounds) in (
            ("--budget", "many", "from 0 to 67108864"), ("--budget", "67108865", "from 0 to 67108864"),
            ("--timeout", "1e7", "of seconds from 0.01 to 1000000"),
            ("--timeout", "nan", "of seconds from 0.01 to 1000000"))),
    (["chek", "x"], "chek; did you mean check? `naplps-pages help` lists the commands"),
    (["help", "chek"], "chek; did you mean check? `naplps-pages help` lists the commands"),
    (["e\x1b[1m"], "e\\x1b[1m; `naplps-pages help` lists the commands"),
    (["--json", "check"], "error: --json stands before the command; `naplps-pages help` lists the commands"),
    ([], "error: a command is needed; `naplps-pages help` lists the commands")]


@pytest.mark.parametrize("words, told", WRONG, ids=lambda each: " ".join(each)[:40] if isinstance(each, list) else "")
def test_what_is_wrong_with_words(run, tmp_path, words, told):
    said = run(words, cwd=str(tmp_path))
    assert (said.stdout, said.returncode) == (b"", 2) and said.stderr.decode().endswith(told + "\n")
    front = " ".join(["naplps-pages", *(word for word in words[:1] if word in MODULES)])
    assert said.stderr.decode().startswith("usage: %s " % front) and "\n%s: error: " % front in said.stderr.decode()
    assert os.listdir(str(tmp_path)) == []


def test_help(run):
    for words in (["--help"], ["check", "--help"], ["show", "-h"]):
        said = run(words)
        assert said.returncode == 0 and said.stdout.startswith(b"usage: naplps-pages") and not said.stderr
        assert run(["help", *words[:-1]]).stdout == said.stdout
    wanted = b"naplps-pages " + Path(TOP, "VERSION").read_bytes()
    assert run(["--version"]).stdout == run(["-V"]).stdout == wanted


@pytest.mark.parametrize("command", COMMANDS)
@pytest.mark.parametrize("name, why", [
    ("none", "none: No such file or directory"), ("folder", "folder: " + IS_FOLDER),
    ("/dev/zero", "/dev/zero: it is a device"), ("socket", "socket: it is a socket"),
    ("a\nb<script>\udcff", "a\\nb<script>\\xff: No such file or directory")])
def test_what_cant_be_read(run, tmp_path, command, name, why):
    if (name, command.split()[0]) == ("folder", "check"):
        pytest.skip("check takes folders")
    os.mkdir(os.path.join(str(tmp_path), "folder"))
    with socket.socket(socket.AF_UNIX) as it:
        it.bind(os.path.join(str(tmp_path), "socket"))
        said = run([*command.split(), name], cwd=str(tmp_path))
    assert (said.stdout, said.stderr.decode(), said.returncode) == (b"", "naplps-pages: %s\n" % why, 3)


def test_many_that_cant_be_read_leave_nothing_open(tmp_path):
    folders = ["folder %d" % number for number in range(100)]
    for name in folders:
        os.mkdir(os.path.join(str(tmp_path), name))
    file(tmp_path, "page", POINT)
    said = subprocess.run([COMMAND, "list", *folders, "page"], capture_output=True, cwd=str(tmp_path),
                          preexec_fn=lambda: resource.setrlimit(resource.RLIMIT_NOFILE, (64, 64)))
    assert (said.stdout, said.returncode) == (b"page: %s\n" % POINT_LINE.encode(), 3)
    assert said.stderr.decode().count(": %s\n" % IS_FOLDER) == 100


@pytest.mark.parametrize("command", COMMANDS)
def test_the_statuses_of_pages(run, folder, command):
    """Each is the same for all commands: 0 what was asked is so, 1 it isn't, 2 wrong words, 3 it couldn't be read."""
    for names, status in ((["good"], 0), (["bad"], 1), (["none"], 3), (["good", "--frob"], 2)):
        assert run([*command.split(), *names], cwd=folder).returncode == status, names
    more = ["-o", "to"] if command.split()[0] in ("canon", "show", "make") else []
    for names, status in ((["good", "bad"], 1), (["none", "bad", "good"], 3)):
        assert run([*command.split(), *names, *more], cwd=folder).returncode == status, names


@pytest.mark.parametrize("words, status", [
    (["diff", "good", "good"], 0), (["diff", "good", "other"], 1), (["diff", "good", "bad"], 1),
    (["diff", "good", "none"], 3), (["make", "lines"], 0), (["make", "other"], 1), (["make", "none"], 3),
    (["make", "other", "none", "lines", "-o", "to"], 3), (["check", "folder"], 1), (["check", "folder", "none"], 3)])
def test_the_statuses_of_other_words(run, folder, words, status):
    tree(folder, {"other": b"BELLS", "lines": b"BELL", "folder/in/bad": OUTSIDE, "folder/good": POINT})
    assert run(words, cwd=folder).returncode == status


@pytest.mark.parametrize("command", COMMANDS)
def test_the_tool_that_fails_itself_has_a_status_of_its_own(folder, monkeypatch, capfd, command):
    monkeypatch.setattr(Client, "ask", lambda *_: 1 // 0)
    page = os.path.join(folder, "good")
    assert main([*command.split(), page], COMMAND) == 70
    out, told = capfd.readouterr()
    assert out == "" and told.count("\n") == 1
    assert told.startswith(f"naplps-pages: {page}: the tool itself failed (") and "ZeroDivisionError" in told


def test_folders_and_packs_are_checked_with_all_in_them(run, tmp_path):
    top = tree(str(tmp_path / "top"), {"b.nap": POINT, "in/bad.nap": OUTSIDE, "in/side/letter": b"hello"})
    pack(os.path.join(top, "old.zip"), {"a/c.nap": POINT})
    os.symlink("b.nap", os.path.join(top, "link"))
    said = run(["check", "top", "top/b.nap"], cwd=str(tmp_path))
    lines = ["top/b.nap: accepted 1 entries", "top/in/bad.nap: refused 10 Outside at 3",
             "top/in/side/letter: accepted 5 entries (text)", "top/old.zip!a/c.nap: accepted 1 entries"]
    assert sorted(said.stdout.decode().splitlines()) == sorted([*lines, lines[0]])
    assert (said.stderr, said.returncode) == (b"", 1)
    rows = [json.loads(line) for line in run(["check", "--json", "top"], cwd=str(tmp_path)).stdout.splitlines()]
    assert sorted(row["name"] for row in rows) == sorted(line.split(": ")[0] for line in lines)
    told = run(["check", "--explain", "top"], cwd=str(tmp_path)).stdout.decode()
    assert all(line.split(" (")[0] + "\n" in told for line in lines)
    assert run(["check", "top/old.zip"], cwd=str(tmp_path)).stdout == lines[3].encode() + b"\n"
    said = run(["check", "top/in/side", "nowhere"], cwd=str(tmp_path))
    assert (said.stdout, said.returncode) == (lines[2].encode() + b"\n", 3)
    assert said.stderr == b"naplps-pages: nowhere: No such file or directory\n"


@pytest.mark.parametrize("command", COMMANDS)
def test_an_empty_page(run, tmp_path, command):
    said = run([*command.split(), file(tmp_path, "empty", b"")])
    assert said.returncode == 0 and said.stderr == b""


@pytest.mark.parametrize("command", COMMANDS)
def test_a_program_that_dies_or_is_not_there_is_told_for_each_command(run, fake, tmp_path, command):
    path = file(tmp_path, "page", POINT)
    for program, why in ((fake("sys.exit(9)"), "%s: the program ended with status 9" % path),
                         ("/nowhere/naplps", "NAPLPS names no program: /nowhere/naplps")):
        said = run([*command.split(), path], program=program)
        assert (said.stdout, said.stderr.decode(), said.returncode) == (b"", "naplps-pages: %s\n" % why, 3)


@pytest.mark.skipif(os.geteuid() != 0, reason="only root can be another user")
@pytest.mark.parametrize("command", COMMANDS)
def test_an_unreadable_page(run_as_nobody, tmp_path, command):
    path = file(tmp_path, "secret", POINT)
    os.chmod(path, 0o600)
    said = run_as_nobody(*command.split(), path)
    assert (said.stdout, said.returncode) == (b"", 3)
    assert said.stderr.decode() == "naplps-pages: %s: Permission denied\n" % path


NAMES = [b"a\nb", b"<script>alert(1)</script>", b"\xff\xfe", "grüße".encode(), b"-", b"--json", b"a b", b"'\"",
         "\u202egpj".encode(), b"a\\nb", b"\x1b[31m"]
SHOWN = ["a\\nb", "<script>alert(1)<", "\\xff\\xfe", "grüße", "./-", "./--json", "a b", "'\"", "\\u202egpj",
         "a\\\\nb", "\\x1b[31m"]


@pytest.mark.parametrize("raw, shown", zip(NAMES, SHOWN))
def test_names(run, tmp_path, raw, shown):
    name = raw.replace(b"/", b"\\")[:17] if b"<" in raw else raw
    words = [b"./" + name if name.startswith(b"-") else name, b"other"]
    for each in (name, "other"):
        file(tmp_path, each, POINT)
    said = run([b"check", *words], cwd=str(tmp_path))
    assert said.stdout.decode("utf-8").splitlines()[0] == shown + ": accepted 1 entries"
    row = json.loads(run([b"check", b"--json", *words], cwd=str(tmp_path)).stdout.splitlines()[0])
    if b"\xff" in raw:
        assert row["name_hex"] == name.hex()
    else:
        assert row["name"].encode("utf-8") == words[0]


@pytest.mark.parametrize("command", [each for each in COMMANDS if "html" not in each])  # (which has the name)
def test_a_fifo_is_read_as_other_filters_do(run, tmp_path, command):
    path = os.path.join(str(tmp_path), "fifo")
    os.mkfifo(path)
    said = subprocess.Popen([COMMAND, *command.split(), path], stdout=subprocess.PIPE)
    with open(path, "wb") as writer:
        writer.write(POINT)
    wanted = run([*command.split(), "-"], POINT).stdout
    assert said.communicate(timeout=900)[0].replace(path.encode(), b"-") == wanted and said.returncode == 0


@pytest.mark.parametrize("how", ["nobody writes", "nobody ends", "slowly", "for ever"])
def test_a_fifo_is_waited_for_no_longer_than_it_may_take(tmp_path, how):
    path = os.path.join(str(tmp_path), "fifo")
    os.mkfifo(path)
    writes = {"nobody writes": "sleep 600", "nobody ends": 'exec 3> "$0"; sleep 600',
              "slowly": 'exec 3> "$0"; while :; do echo x >&3; sleep 0.05; done',
              "for ever": 'cat /dev/zero > "$0"'}[how]
    writer = subprocess.Popen(["sh", "-c", writes, path], start_new_session=True, stderr=subprocess.DEVNULL)
    try:
        said = subprocess.run([COMMAND, "check", "--timeout", "1", path, path], capture_output=True, timeout=600)
    finally:
        os.killpg(writer.pid, signal.SIGKILL)
        writer.wait()
    assert (said.returncode, said.stdout) == (3, b"")
    line = "naplps-pages: %s: it is a pipe that didn't end in 1 s\n" % path
    assert said.stderr.decode() == line * 2


def test_a_pipe_of_the_shell_is_waited_for():
    lines = '"$0" check --timeout 8 <(sleep 10; printf "\\016\\046\\122\\100\\100") <(printf "") /dev/stdin'
    said = subprocess.run(["bash", "-c", lines, COMMAND], capture_output=True, input=POINT)
    answers = [line.split(b": ")[1].split(b" (")[0] for line in said.stdout.splitlines()]
    assert answers == [b"accepted 1 entries", b"accepted 0 entries", b"accepted 1 entries"] and said.returncode == 0


def test_names_of_files_that_are_made(run, tmp_path, to):
    names = [b"a\nb", b"<script>", b"\xff"]
    paths = [file(tmp_path, name, POINT) for name in names]
    for command in ("canon", "show"):
        said = run([command, *paths, "-o", to])
        assert (said.stdout, said.stderr, said.returncode) == (b"", b"", 0)
    made = files_in(to)
    assert set(made) == {name + ending for name in names for ending in (b"", b".svg")}
    assert not any(name in data for name in names for data in made.values())


def test_a_closed_pipe_ends_it_silently(tmp_path):
    path = file(tmp_path, "page", POINT * 3000)
    line = '"$0" list "$1" "$1" | head -n 1; echo "${PIPESTATUS[0]}"'
    said = subprocess.run(["bash", "-c", line, COMMAND, path], capture_output=True)
    assert said.stderr == b"" and said.stdout.splitlines()[-1] == b"141"


@pytest.mark.parametrize("words", [*[[*command.split(), "page"] for command in COMMANDS], ["--help"], ["--version"]])
def test_a_full_device_is_told(tmp_path, words):
    file(tmp_path, "page", b"A")
    with open("/dev/full", "wb") as full:
        said = subprocess.run([COMMAND, *words], stdout=full, stderr=subprocess.PIPE, cwd=str(tmp_path))
    assert (said.returncode, said.stderr) == (3, b"naplps-pages: standard output: No space left on device\n")


def test_a_file_in_place_of_a_folder(run, tmp_path):
    page = file(tmp_path, "page", POINT)
    for words in (["canon", page, page], ["show", page, page], ["canon", page], ["fix", page]):
        said = run([*words, "-o", page + "/" if len(words) == 2 else page])
        assert said.stderr.decode().endswith(": Not a directory\n") and said.stderr.count(b"\n") == 1
        assert (said.stdout, said.returncode) == (b"", 3)


@pytest.mark.parametrize("command", [
    "canon", "show", "show --format png", "show --format text", "fix", "fix --only split", "fix --only repair",
    "fix --only carve", "make", "make --from"])
def test_a_folder_in_which_nothing_is_put_is_not_left(run, tmp_path, command):
    page = file(tmp_path, "page", b"RECTANGLE" if command == "make" else b"\x0e\x26")
    words = [*command.split(), str(tmp_path / "none") if command.startswith("show") else page, "-o",
             str(tmp_path / "in" / "side" / "to/")]
    assert run(words).returncode in (0, 1, 3) and os.listdir(str(tmp_path)) == ["page"]
    os.mkdir(str(tmp_path / "in"))
    assert run(words).returncode in (0, 1, 3) and os.listdir(str(tmp_path / "in")) == []


def test_a_hostile_page_is_asked_no_list(run, fake, tmp_path):
    asked = os.path.join(str(tmp_path), "asked")
    lines = ("for line in iter(sys.stdin.buffer.readline, b''):\n    command, budget, length = line.split()\n"
             "    sys.stdin.buffer.read(int(length))\n    open(%r, 'ab').write(command)\n"
             "    os.write(1, b'accepted 20000000 entries\\n0\\n')\n" % asked)
    path = file(tmp_path, "bomb", BOMB)
    said = run(["show", path], program=fake(lines))
    assert said.returncode == 0 and b"No sketch: the page has 20000000 entries" in said.stdout
    assert Path(asked).read_bytes() == b"check"


# Runs a command, and tells the most memory that it or the program held, in KiB. (By itself, since a process counts what
# the one that started it held.)
MEASURED = """
import resource, subprocess, sys
status = subprocess.call(sys.argv[1:])
print(status, resource.getrusage(resource.RUSAGE_CHILDREN).ru_maxrss, file=sys.stderr)
"""


def test_a_hostile_page_has_a_sketch_that_says_so(tmp_path):
    path = file(tmp_path, "bomb", BOMB)
    assert len(BOMB) < 761
    said = subprocess.run([sys.executable, "-c", MEASURED, COMMAND, "show", path, *PATIENT], capture_output=True)
    assert b"No sketch: the page has 21639582 entries" in said.stdout
    status, held = map(int, said.stderr.split())
    assert status == 0 and held < 64 << 10


def test_a_hostile_page_that_is_refused(run, tmp_path):
    path = file(tmp_path, "bomb", BOMB + b"\x18")
    line = b"refused 6 LeftOut CAN at %d" % len(BOMB)
    said = run(["show", path, *PATIENT])
    assert said.returncode == 1 and b"No sketch: too much comes first, then " + line in said.stdout
    said = run(["check", "--explain", path, *PATIENT])
    assert said.returncode == 1 and said.stderr == b"" and line in said.stdout
    assert b"The entries aren't shown" in said.stdout and b"What it means: The byte 18, cancel." in said.stdout
    said = run(["show", "--format", "text", path, *PATIENT])
    assert said.returncode == 3 and said.stderr.endswith(b"bomb: too much for its text to be asked\n")


@pytest.mark.parametrize("words, status, out", [
    (["show"], 3, b""), (["show", "--format", "text"], 3, b""), (["list", "--json"], 3, b'"list": null}\n')])
def test_entries_that_nobody_knows(run, fake, tmp_path, words, status, out):
    lines = ("for line in iter(sys.stdin.buffer.readline, b''):\n    command, budget, length = line.split()\n"
             "    sys.stdin.buffer.read(int(length))\n"
             "    body = b'' if command == b'check' else b'5 NOTHING at=all\\n'\n"
             "    os.write(1, b'accepted 1 entries\\n%d\\n' % len(body) + body)\n")
    said = run([*words, file(tmp_path, "page", POINT)], program=fake(lines))
    assert said.returncode == status and said.stdout.endswith(out)
    assert said.stderr.endswith(b"page: the program answered something that is no answer\n")


def test_a_long_page_has_the_answers_of_the_plain_commands(naplps, run, tmp_path):
    for end in (b"\x07", b"\x18"):
        path = file(tmp_path, "long", bytes((16 << 20) + 1) + end)
        for command in ("check", "list", "canon"):
            with open(path, "rb") as page:
                plain = subprocess.run([naplps, command], stdin=page, capture_output=True)
            said = run([command, path, *PATIENT])
            out = plain.stdout.replace(b" entries\n", b" entries (text)\n") if command == "check" else plain.stdout
            assert (said.stdout, said.returncode) == (out, plain.returncode)


def test_closed_descriptors(tmp_path):
    path = file(tmp_path, "page", POINT)
    for words, status, told in (
            ('check "$1" >&-', 3, b"naplps-pages: standard output: Bad file descriptor\n"),
            ("check - <&-", 3, b"naplps-pages: -: Bad file descriptor\n"), ('check "$1" nothing 2>&-', 3, b"")):
        said = subprocess.run(["sh", "-c", '"$0" ' + words, COMMAND, path], capture_output=True)
        assert (said.returncode, said.stderr) == (status, told)


def test_a_folder_that_an_older_copy_left_is_passed_over(tmp_path):
    os.makedirs(os.path.join(str(tmp_path), "pages", "naplps_pages", "__pycache__"))
    os.symlink(PACKAGES, os.path.join(str(tmp_path), "python"))
    command = shutil.copy(COMMAND, os.path.join(str(tmp_path), "pages"))
    said = subprocess.run([command, "check", "-"], input=POINT, capture_output=True)
    assert (said.stdout, said.stderr, said.returncode) == (b"accepted 1 entries\n", b"", 0)


def test_the_command_without_its_package(tmp_path):
    said = subprocess.run([shutil.copy(COMMAND, str(tmp_path)), "check", "page"], capture_output=True)
    assert (said.stdout, said.returncode) == (b"", 3)
    assert said.stderr.startswith(b"naplps-pages: its package isn't there: ") and said.stderr.count(b"\n") == 1


def hangs(fake, tmp_path):
    """A program that hangs, and where it notes its number."""
    note = os.path.join(str(tmp_path), "pid")
    return fake("open(%r, 'w').write(str(os.getpid()))\ntime.sleep(6000)" % note), note


def started(fake, tmp_path, seconds, **more):
    """The command, which waits so long for a program that hangs, and the number of that program."""
    program, note = hangs(fake, tmp_path)
    words = [COMMAND, "check", file(tmp_path, "page", POINT), "--timeout", str(seconds)]
    said = subprocess.Popen(words, stderr=subprocess.PIPE, env=dict(os.environ, NAPLPS=program), **more)
    wait_until(lambda: os.path.exists(note) and os.path.getsize(note), said)
    return said, Path(note).read_text("ascii")


@pytest.mark.parametrize("number", [signal.SIGINT, signal.SIGTERM, signal.SIGHUP])
def test_a_signal_ends_the_program_too(fake, tmp_path, number):
    said, pid = started(fake, tmp_path, 600, preexec_fn=lambda: signal.signal(number, signal.SIG_DFL))
    said.send_signal(number)
    assert said.communicate(timeout=900)[1] == b"" and said.returncode == -number
    assert not os.path.exists("/proc/" + pid)


INTERRUPTED = """
import os, signal, subprocess, sys, time
sys.path.insert(0, sys.argv.pop(1))
note = sys.argv.pop(1)
from naplps_pages.__main__ import run
class Interrupted(subprocess.Popen):
    def __init__(self, *words, **more):
        super().__init__(*words, **more)
        while not (os.path.exists(note) and os.path.getsize(note)): time.sleep(0.05)
        os.kill(os.getpid(), signal.SIGTERM)
subprocess.Popen = Interrupted
run("naplps-pages")
"""


def test_a_signal_while_the_program_starts_ends_it_too(fake, tmp_path):
    program, note = hangs(fake, tmp_path)
    words = [sys.executable, "-c", INTERRUPTED, PACKAGES, note, "check", file(tmp_path, "page", POINT), *PATIENT]
    said = subprocess.run(words, stderr=subprocess.PIPE, env=dict(os.environ, NAPLPS=program), timeout=900)
    assert (said.returncode, said.stderr) == (-signal.SIGTERM, b"")
    assert not os.path.exists("/proc/" + Path(note).read_text("ascii"))


def test_a_signal_that_is_ignored_stays_so(fake, tmp_path):
    said, _ = started(fake, tmp_path, 10, preexec_fn=lambda: signal.signal(signal.SIGHUP, signal.SIG_IGN))
    said.send_signal(signal.SIGHUP)
    assert said.communicate(timeout=900)[1].endswith(b"page: no answer in 10 s\n") and said.returncode == 3


@pytest.fixture
def long(tmp_path):
    """A page of 17 MiB, which is no request."""
    path = file(tmp_path, "long", b"")
    os.truncate(path, 17 << 20)
    return path


PLAIN = """
assert sys.argv[2:] == ['--budget', '1048576'] and len(sys.stdin.buffer.read()) == 17 << 20
sys.stdout.write({'check': 'accepted 1 entries\\n', 'list': 'BELL\\n', 'canon': '\\x0e!_\\x07'}[sys.argv[1]])
"""


@pytest.mark.parametrize("words, out", [
    (["check"], b"accepted 1 entries (text)\n"), (["list"], b"BELL\n"), (["canon"], b"\x0e!_\x07"),
    (["show", "--format", "text"], b""), (["make", "--from"], b"BELL\n"),
    (["list", "--json"], b'"list": [{"kind": "BELL", "place": null}]}\n'), (["show"], b"</svg>\n"),
    (["check", "--explain"], b"The page is longer than 16 MiB: its entries aren't shown.\n"),
    (["fix", "--only", "repair"], b"accepted 1 entries\n")])
def test_a_page_above_16_mib_goes_through_the_plain_commands(run, fake, long, words, out):
    said = run([*words, long], program=fake(PLAIN))
    assert (said.stderr, said.returncode) == (b"", 0) and said.stdout.endswith(out)


@pytest.mark.parametrize("lines", ["sys.stdin.buffer.read()", "sys.stdin.buffer.read(); print('NOTHING', '\\xff')"])
@pytest.mark.parametrize("command", ["check", "list", "canon"])
def test_nonsense_about_a_long_page(run, fake, long, command, lines):
    if command != "check":
        lines = "if sys.argv[1] == 'check': print('accepted 1 entries')\nelse: sys.exit()"
    said = run([command, long], program=fake(lines))
    assert said.stderr.endswith(b"long: the program answered something that is no answer\n")
    assert (said.stdout, said.returncode) == (b"", 3)


def test_a_long_page_that_is_refused(run, fake, long):
    refuses = fake("sys.stdin.buffer.read(); print('refused 10 Outside at 16777300'); sys.exit(1)")
    said = run(["check", "--explain", long], program=refuses)
    assert said.returncode == 1 and b"The bytes around 16777300:\n16777280  00 00" in said.stdout
    untried = b"the page is longer than 16 MiB: no repair is tried\n"
    assert run(["fix", "--only", "repair", long], program=refuses).stderr.endswith(untried)
    unseen = b"No sketch: too much comes first, then refused 10 Outside"
    assert run(["show", long], program=refuses).stdout.count(unseen) == 2
    assert run(["list", long], program=refuses).returncode == 1
