"""What the tool itself takes for a page of very many entries, or of codes that aren't read; the program's stack."""
import json
import os
import re
import resource
import subprocess
import time

import pytest

from command import COMMAND, file
from naplps import Char
from naplps.entry import read_line
from naplps_pages.collection.census import Census
from naplps_pages.schema import AT_ONCE, dumps, pieces_of
from samples import MACRO, has

MOST_MIB = 128
# A macro of letters that repeat 63 times each, which is called again and again.
BODY = b"A\x1b\x46\x7f" * 100
CALLED = b"\x1b*z\x1b\x40\x21" + BODY + b"\x1b\x45" + b"\x19\x21" * 33


@pytest.mark.parametrize("words, entries", [
    (["list", "--json"], 211_200), (["list", "--json", "second"], 211_200), (["list", "second"], 211_200)])
def test_a_list_takes_little_memory(naplps, tmp_path, words, entries):
    """Of 650 bytes; each entry took 2,250 bytes before, which is 450 MiB."""
    page = file(tmp_path, "bomb", CALLED)
    second = file(tmp_path, "second", b"\x07")
    words = [second if each == "second" else each for each in words]
    said = subprocess.run(["prlimit", f"--as={MOST_MIB << 20}", COMMAND, *words, page], capture_output=True,
                          env=dict(os.environ, NAPLPS=naplps))
    assert (said.returncode, said.stderr) == (0, b"")
    assert said.stdout.count(b'"kind": "CHAR"' if "--json" in words else b": CHAR ") == entries


@pytest.mark.parametrize("count", [0, 1, AT_ONCE - 1, AT_ONCE, AT_ONCE + 1, 2 * AT_ONCE, 2 * AT_ONCE + 1])
def test_pieces_are_the_whole_object(count):
    front, rows = {"name": "a", "entries": count}, [{"kind": "BELL", "place": number} for number in range(count)]
    whole = json.dumps({**front, "list": rows}, separators=(", ", ": "))
    assert "".join(pieces_of(front, "list", iter(rows))) == dumps({**front, "list": rows}) == whole


def test_the_list_of_a_page_of_many_pieces(run, naplps, tmp_path):
    """The object has the lines that the program prints, in their order, each at its place."""
    data = b"AB\x07" * AT_ONCE
    said = run(["list", "--json", file(tmp_path, "page", data)])
    told = json.loads(said.stdout)
    lines = subprocess.run([naplps, "list"], input=data, capture_output=True).stdout.decode("ascii").splitlines()
    assert said.stdout.endswith(b"}]}\n") and said.stdout.count(b"\n") == 1 and told["entries"] == 3 * AT_ONCE
    for number, (row, line) in enumerate(zip(told["list"], lines)):
        entry = read_line(line)
        assert (row["kind"], row["place"]) == (entry.kind, number)
        assert not isinstance(entry, Char) or row["character"] == entry.code == data[number]


@pytest.mark.parametrize("at", [0, AT_ONCE - 1, AT_ONCE, AT_ONCE + 7, 3 * AT_ONCE - 1])
def test_nothing_is_printed_of_what_is_no_list(run, fake, tmp_path, at):
    count = 3 * AT_ONCE
    lines = ("for line in iter(sys.stdin.buffer.readline, b''):\n    command, budget, length = line.split()\n"
             "    sys.stdin.buffer.read(int(length))\n"
             f"    body = b''.join(b'0 NOTHING\\n' if n == {at} else b'0 BELL\\n' for n in range({count}))\n"
             f"    os.write(1, b'accepted {count} entries\\n%d\\n' % len(body) + body)\n")
    said = run(["list", "--json", file(tmp_path, "page", b"\x07")], program=fake(lines))
    assert said.stderr.endswith(b"page: the program answered something that is no answer\n")
    assert json.loads(said.stdout)["list"] is None and said.returncode == 3


def test_a_census_of_many_codes_is_linear():
    names, census = [f"code {number}" for number in range(100_000)], Census()
    start = time.process_time()
    census.note(names)
    assert time.process_time() - start < 10  # (a quadratic one takes some minutes)
    assert len(census.rows) == 100_000 and {row.only for row in census.rows.values()} == {0}
    census.note(["code 5", "code 5"])
    assert census.rows["code 5"].only == 1 and census.rows["code 5"].times == 3


STACKS = {"--version": b"", "batch": b"", "check": MACRO, "list": MACRO, "canon": MACRO, "canon --stream": MACRO,
          "check --hex": MACRO.hex().encode(), "list --hex": MACRO.hex().encode(), "canon --hex": MACRO.hex().encode(),
          "make": b"BELL\n", "make --stream": b"BELL\n"}


@pytest.mark.parametrize("words, given", STACKS.items(), ids=STACKS)
def test_the_stack_that_the_manual_asks_for(naplps, words, given):
    room = 192 << 10
    said = subprocess.run([naplps, *words.split()], input=given, capture_output=True, env={},
                          preexec_fn=lambda: resource.setrlimit(resource.RLIMIT_STACK, (room, room)))
    assert (said.returncode, said.stderr) == (0, b"")


# A character, or one of the DRCS, and REPEATs of 63 copies.
REPEATS = 1_000
REPEATED = {"A": b"A", "DRCS": b"\x1b\x28\x7b\x41"}
COPIES = b"\x1b\x46\x7f" * REPEATS


@pytest.mark.parametrize("before", REPEATED.values(), ids=REPEATED)
def test_pages_of_copies_come_near_to_the_bounds(naplps, before):
    page = before + COPIES
    said = [subprocess.run([naplps, command, "--budget", "0"], input=page, capture_output=True, check=True).stdout
            for command in ("check", "canon")]
    entries, size = int(said[0].split()[1]), len(said[1])
    assert entries == 63 * REPEATS + 1 and entries <= 21 * len(page) < 2 * entries
    assert size <= 190 * len(page) + 3
    assert before == b"A" or 2 * size > 190 * len(page) + 3


READ = re.compile(r"^read\(0, .*, (\d+)\) += \d+$", re.MULTILINE)


@pytest.mark.skipif(not has("strace"), reason="not tried: there is no strace (Debian: apt-get install strace)")
@pytest.mark.parametrize("words, size", [(["make"], 65_536), (["make", "--stream"], 4_096), (["canon"], 65_536),
                                         (["canon", "--stream"], 4_096)], ids=lambda value: str(value))
def test_how_much_is_read_at_a_time(naplps, tmp_path, words, size):
    trace = tmp_path / "trace"
    data = b"BELL\n" * 60_000 if words[0] == "make" else b"\x07" * 300_000
    (tmp_path / "input").write_bytes(data)
    with open(tmp_path / "input", "rb") as source:
        subprocess.run(["strace", "-o", str(trace), "-e", "trace=read", "-s", "1", naplps, *words], stdin=source,
                       stdout=subprocess.DEVNULL, check=True)
    sizes = [int(each) for each in READ.findall(trace.read_text("ascii"))]
    assert set(sizes) == {size} and len(sizes) >= len(data) // size
