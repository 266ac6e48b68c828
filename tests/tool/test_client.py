"""Asking the program: answers, and all that may go wrong with it."""
import os
from contextlib import closing

import pytest

from command import file
from fake_programs import BATCH
from naplps.answers import NONSENSE, Accepted, Find, Finds, Nonsense, Refusal, Unanswered, read_finds, read_line
from naplps.client import Client
from naplps.limits import MOST_PAGE, Limits
from naplps_pages.source import read
from samples import MACRO, OUTSIDE, POINT, POINT_LINE
from scans import wait_until


def ask(path, command="check", page=POINT, **limits):
    with closing(Client(path, limits=Limits(**{"seconds": 600, **limits}))) as program:
        return program.ask(command, page)


def test_answers_of_the_program(program):
    assert program.ask("check", POINT) == Accepted(1)
    assert program.ask("list", POINT) == Accepted(1, POINT_LINE.encode() + b"\n")
    assert program.ask("canon", POINT) == Accepted(1, bytes.fromhex("0E215F265240404040404040"))
    assert program.ask("places", POINT) == Accepted(1, b"5 " + POINT_LINE.encode() + b"\n")
    assert program.ask("check", OUTSIDE) == Refusal(10, "Outside", None, 3)
    assert program.ask("places", OUTSIDE) == Refusal(10, "Outside", None, 3, b"3 " + POINT_LINE.encode() + b"\n")
    assert program.ask("check", b"\x18") == Refusal(6, "LeftOut", "CAN", 0)
    assert program.find(bytes(9) + b"\x0c" + POINT, 1) == Finds([Find(9, 15)], 9, 0)
    assert program.started == 1


def test_the_budget_is_passed_on(naplps):
    for budget, answer in ((4, Accepted(1)), (3, Refusal(17, "Budget", None, 13))):
        with closing(Client(naplps, budget)) as program:
            assert program.ask("check", MACRO) == answer


@pytest.mark.parametrize("line", [
    b"", b"accepted", b"accepted 1 entry", b"accepted 01 entries", b"accepted -1 entries", b"accepted 1 entries ",
    b"refused 10 Outside at 6", b"refused 0 Outside at 3", b"refused 23 Unbuilt at 3", b"refused 10 Outside at",
    b"refused 10 Out;side at 3", b"refused 10  at 3", b"\xff", b"accepted 99999999999999999999 entries"])
def test_lines_that_are_no_answers(line):
    with pytest.raises(Nonsense):
        read_line(line, 5)


@pytest.mark.parametrize("text", [
    b"", b"1 2\n", b"open 3 passed 0", b"open 10 passed 0\n", b"open 3 passed 0\n1 2\n", b"2 1\nopen 3 passed 0\n",
    b"1 3\n2 4\nopen 3 passed 0\n", b"1 10\nopen 3 passed 0\n", b"01 2\nopen 3 passed 0\n",
    b"1 2 \nopen 3 passed 0\n", b"1 2\n\nopen 3 passed 0\n", b"open -1 passed 0\n", b"open 3 passed\n",
    b"\xff\nopen 3 passed 0\n"])
def test_texts_that_are_no_finds(text):
    with pytest.raises(Nonsense):
        read_finds(text, 9)


@pytest.mark.parametrize("said", [
    "found 1 pages\\n16\\nopen 0 passed 0\\n", "found 0 pages\\n15\\nopen 0 passed 0", "found 0 pages\\n0\\n",
    "accepted 0 entries\\n16\\nopen 0 passed 0\\n", "found 00 pages\\n16\\nopen 0 passed 0\\n",
    "refused 10 Outside at 3\\n0\\n"])
def test_finds_that_are_nonsense(fake, said):
    lines = BATCH + "next(requests()); os.write(1, b'%s'); time.sleep(60)" % said
    with closing(Client(fake(lines), limits=Limits(seconds=600))) as program:
        assert program.find(POINT, 1) == Unanswered(NONSENSE)


def test_finds_that_lack_memory(fake):
    lines = BATCH + "next(requests()); os.write(1, b'no memory\\n0\\n'); time.sleep(60)"
    with closing(Client(fake(lines), limits=Limits(seconds=600))) as program:
        assert program.find(POINT, 1) == Unanswered("the program had no memory for it", too_much=True)


def test_want_of_memory_is_no_answer():
    assert read_line(b"refused 21 Memory at 3", 5) == Unanswered(
        "the program had no memory for it (refused 21 Memory at 3)", too_much=True)
    assert read_line(b"no memory", 5) == Unanswered("the program had no memory for it", too_much=True)
    assert read_line(b"refused 22 Sink at 3", 5) == Unanswered("a device of the program failed (refused 22 Sink at 3)")


def test_a_program_that_hangs_or_reads_nothing_is_ended(fake):
    for lines in ("time.sleep(60)", BATCH + "for each in requests(): time.sleep(60)",
                  BATCH + "for each in requests(): os.write(1, b'accepted 1 ent'); time.sleep(60)"):
        assert ask(fake(lines), seconds=0.5) == Unanswered("no answer in 0.5 s")
    assert ask(fake("time.sleep(60)"), page=bytes(1 << 20), seconds=0.5) == Unanswered("no answer in 0.5 s")


@pytest.mark.parametrize("lines, why", [
    ("sys.exit(3)", "ended with status 3"), ("os.kill(os.getpid(), 9)", "was ended by SIGKILL"),
    ("sys.stderr.write('request fault\\n'); sys.exit(3)", "ended with status 3: request fault"),
    (BATCH + "next(requests()); sys.stdout.write('accepted 1 entries\\n100\\nabc'); sys.stdout.flush()",
     "ended with status 0"),
    # Before it has read all.
    ("time.sleep(0.2); sys.exit(3)", "ended with status 3"),
    ("os.read(0, 100000); time.sleep(0.2); sys.exit(3)", "ended with status 3")])
def test_a_program_that_dies(fake, lines, why):
    page = bytes(1 << 20) if "sleep" in lines else POINT
    assert ask(fake(lines), "list" if "requests" in lines else "check", page) == Unanswered("the program " + why)


@pytest.mark.parametrize("said", [
    "b'hello\\n0\\n'", "b'accepted 1 entries\\nmany\\n'", "b'accepted 1 entries\\n-1\\n'",
    "b'accepted 1 entries\\n2\\nab'",
    "b'x' * 5000", "b'\\xff\\n0\\n'", "b'refused 10 Outside at 600\\n0\\n'", "b'accepted 1 entries\\n0\\nmore'"])
def test_nonsense_is_no_answer(fake, said):
    lines = BATCH + "next(requests()); os.write(1, %s); time.sleep(60)" % said
    assert ask(fake(lines)) == Unanswered(NONSENSE)


def test_an_answer_that_is_too_long_is_not_held(fake):
    lines = BATCH + "next(requests()); os.write(1, b'accepted 1 entries\\n10000000000\\n'); time.sleep(60)"
    assert ask(fake(lines), "list") == Unanswered("its answer is too long to be held: 10000000000 bytes", too_much=True)


def test_memory_is_limited(fake):
    answer = ask(fake("held = bytearray(400 << 20)"), memory=200 << 20)
    assert isinstance(answer, Unanswered) and answer.reason.startswith("the program ended with status 1")


def test_what_the_program_started_is_ended_too(fake, tmp_path):
    note = os.path.join(str(tmp_path), "pid")
    lines = ("pid = os.fork()\nif pid:\n    open(%r, 'w').write(str(pid))\n    os.write(1, b'nonsense\\n\\n')\n"
             "time.sleep(60)" % note)
    assert ask(fake(lines)) == Unanswered(NONSENSE)
    with open(note, encoding="ascii") as made:
        pid = int(made.read())
    wait_until(lambda: not _lives(pid))


def _lives(pid):
    try:
        with open("/proc/%d/stat" % pid) as file_:
            return file_.read().rsplit(")", 1)[1].split()[0] != "Z"
    except FileNotFoundError:
        return False


def test_the_next_page_gets_a_new_process(fake):
    program = Client(fake(BATCH + "for command, budget, page in requests():\n    if page == b'bad': sys.exit(1)\n"
                                   "    answer(b'accepted 7 entries')"))
    assert program.ask("check", b"good") == Accepted(7)
    assert isinstance(program.ask("check", b"bad"), Unanswered)
    assert program.ask("check", b"good") == Accepted(7)
    assert program.started == 2
    program.close()


def test_a_program_that_isnt_there(tmp_path):
    path = os.path.join(str(tmp_path), "nothing")
    assert ask(path) == Unanswered("the program can't be started: %s: No such file or directory" % path)


def test_a_page_of_16_mib_is_a_request_and_a_longer_one_is_not(fake, tmp_path):
    path = fake(BATCH + "if sys.argv[1] == 'batch':\n"
                        "    for each in requests(): answer(b'accepted %d entries' % len(each[2]))\n"
                        "else:\n    print('accepted', len(sys.stdin.buffer.read()), 'entries')")
    for length in (MOST_PAGE, MOST_PAGE + 1):
        with closing(read(file(tmp_path, "long", bytes(length)), 60)) as page, closing(Client(path)) as program:
            assert program.ask("check", page) == Accepted(length)
            assert program.started == (1 if length == MOST_PAGE else 0)
