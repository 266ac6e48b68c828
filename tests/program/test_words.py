"""The program on its words: worked examples, wrong command lines and their reasons, what `--budget` chooses, help with
its examples, and the version."""
import re
import tempfile
import textwrap
from pathlib import Path
from typing import List, NamedTuple, Sequence, Tuple, Union

import pytest

from dev.judging import Answer, run
from dev.layout import TOP, sources_version
from shells import answer, with_naplps

HEADER = b"\x0e!_"
POINT = b"\x0e&R"
POINT_TEXT = HEADER + b"&R@@@@@@@"
POINT_LINE = b"POINT 4194304,4194304 pel=0,0 colour=own-start\n"
POINT_DIGITS = b"0E 26 52 40 40"
ONE_ENTRY = b"accepted 1 entries\n"

# A point whose operand continues after the call of a macro; the page is charged with the three bytes of the body.
CALL = b"\x1b@!\x0e&R\x1bE\x1b/z\x1d!@@"
CALL_DIGITS = b"1B 40 21 0E 26 52 1B 45 1B 2F 7A 1D 21 40 40"
OVER_BUDGET = b"refused 17 Budget at 12\n"

# Words, a page, and what the program answers.
EXAMPLES: List[Tuple[str, bytes, Answer]] = [
    ("check --hex", POINT_DIGITS, Answer(0, ONE_ENTRY)),
    ("list --hex", POINT_DIGITS, Answer(0, POINT_LINE)),
    ("canon --hex", POINT_DIGITS, Answer(0, b"0e215f265240404040404040\n")),
    ("check --hex", b"", Answer(0, b"accepted 0 entries\n")),
    ("list --hex", b"", Answer(0)),
    ("canon --hex", b"", Answer(0, b"0e215f\n")),
    ("check --hex", b"0e\t26\r\n 5240 4\n0", Answer(0, ONE_ENTRY)),
    ("list --hex", b"18", Answer(1, b"", b"refused 6 LeftOut CAN at 0\n")),
    ("canon --hex", b"0E 26 52 0E 24", Answer(1, b"", b"refused 8 Missing at 4\n")),
    ("canon --hex", b"1B 40 21", Answer(1, b"", b"refused 20 Unended at 3\n")),
    ("check --hex", b"80", Answer(1, b"refused 1 EighthBit at 0\n")),
    ("check --hex --budget 2", CALL_DIGITS, Answer(1, OVER_BUDGET)),
    ("check --hex --budget 3", CALL_DIGITS, Answer(0, ONE_ENTRY)),
    ("check --hex", b"0E2", Answer(3, b"", b"hex fault\n")),
    ("canon --hex", b"0E 2G", Answer(3, b"", b"hex fault\n")),
    ("canon", POINT, Answer(0, POINT_TEXT)),
    ("canon --stream", POINT, Answer(0, POINT_TEXT)),
    ("canon --stream", b"", Answer(0, HEADER)),
    ("canon --stream", POINT + b"\x0e$", Answer(1, POINT_TEXT, b"refused 8 Missing at 4\n")),
    ("canon --stream", b"\x80", Answer(1, HEADER, b"refused 1 EighthBit at 0\n")),
    ("canon --budget 2 --stream", CALL, Answer(1, HEADER, OVER_BUDGET)),
    ("canon --budget 3 --stream", CALL, Answer(0, POINT_TEXT)),
    ("make", POINT_LINE, Answer(0, POINT_TEXT)),
    ("make --stream", POINT_LINE, Answer(0, POINT_TEXT)),
    ("make", POINT_LINE + b"END\n", Answer(1, b"", b"line 2: can't come here\n")),
    ("make --stream", POINT_LINE + b"END\n", Answer(1, POINT_TEXT, b"line 2: can't come here\n")),
]

# The last word of the second line is empty.
WRONG = [
    "",
    "frob --hex ",
    "frob list --hex",
    "list --stream --hex",
    "list --stream",
    "check --stream",
    "list list --hex",
    "list --budget=1 --budget=1",
    "list --hex --budget",
    "list --budget 67108865",
    "list --budget=67108865",
    "list --hex --budget=-1",
    "canon --hex --stream",
    "help list frob",
    "make --hex",
    "make --budget 1",
    "make --stream --stream",
    "batch --hex",
    "batch --budget 1",
    "batch list",
]
NOT_UTF_8 = Answer(2, b"", b"error: a word of the command line isn't UTF-8\n")

# Command lines with a word that may be meant for the file of a page; and the command whose usage is shown.
FILES = [
    ("check page.nap", "check"),
    ("list --hex page.nap", "list"),
    ("canon --budget 3 page.nap --stream", "canon"),
    ("batch requests", "batch"),
    ("make lines.txt", "make"),
    ("make --stream lines.txt", "make"),
    ("page.nap", ""),
    ("page.nap list", ""),
]
HINT = b"A page is read from standard input: naplps check < FILE\n"
LINES_HINT = b"Lines are read from standard input: naplps make < FILE\n"
# Command lines that are wrong for another reason.
NO_FILES = ["check --frob", "list --version", "list --hex --hex", "list --budget many", "--frob", "canon --budget",
            "help frob", "help list page.nap", "--hex list"]
# Command lines with a word that is no command.
NO_COMMANDS = ["frob", "page.nap", "help frob", "help list frob"]
# Values that no budget has.
NO_BUDGETS = ["many", "", "1 2", "67108865", "99999999999999999999", "-1", "a: b"]
NO_BUDGET = "error: invalid value '%s' for '--budget <N>': it takes a number from 0 to 67108864\n"
MORE = "\nFor more information, try '--help'.\n"
EXCLUDED = Answer(2, b"", b"--hex and --stream exclude each other\n")
USAGES = {
    "": "naplps COMMAND [OPTIONS] < PAGE",
    "list": "naplps list [--hex] [--budget N] < PAGE",
    "check": "naplps check [--hex] [--budget N] < PAGE",
    "canon": "naplps canon [--hex | --stream] [--budget N] < PAGE",
    "make": "naplps make [--stream] < LINES",
    "batch": "naplps batch < REQUESTS",
}
COMMANDS = b"The commands are list, check, canon, make and batch.\n"

# Words of strangers, and the words around them.
STRANGE = ["e\x1b]0;t\x07.nap", "\x1b[2J", "a\nerror: b", "\r", "\x7f", "\x9b", "é", "\u202e", "\U000e0001", "\t"]
AROUND = ["%s", "check %s", "list --budget %s", "canon --%s", "help %s"]

# Words, and the budget that they choose.
BUDGETS = [
    *((f"{command} --budget {number}", int(number)) for command in ("canon", "check --hex")
      for number in ("0", "1", "007", "+70000", "67108864")),
    ("list", 1_048_576),
    ("list --budget=-0", 0),
]
NO_ENTRIES = {"list": b"", "check": b"accepted 0 entries\n", "canon": HEADER}
BODY = 524_288


class Help(NamedTuple):
    """A command line that asks for a help, its command, how that begins and ends, and what stands between."""

    line: str
    command: str
    first: str
    last: str
    parts: Tuple[str, ...]


WIDTH = 100
BUDGET_HELP = ("--budget <N>", "0 to 67108864 [default: 1048576]")
POINT_SHOWN = "\n  POINT 4194304,4194304 pel=0,0 colour=own-start\n"
OF_ALL = ("", "Reads NAPLPS pages", POINT_SHOWN,
          ("\n  list ", "\n  check ", "\n  canon ", "\n  make ", "\n  batch ", "\n  2  a wrong command line\n"))
OF_LIST = ("list", "Prints one line for each point", POINT_SHOWN, ("--hex", *BUDGET_HELP))
OF_CHECK = ("check", "Says whether the page is accepted", "\n  accepted 1 entries\n", ("--hex", *BUDGET_HELP))
OF_CANON = ("canon", "Prints the page's canonical stream", "\n  0e215f265240404040404040\n", ("--stream", *BUDGET_HELP))
OF_MAKE = ("make", "Makes the page of lines", POINT_SHOWN, ("--stream",))
OF_BATCH = ("batch", "Answers requests, one after another", "\n  accepted 1 entries\n  0\n",
            ("COMMAND BUDGET LENGTH", "check, list, canon or places; or make"))
HELPS = [
    Help("--help --hex", *OF_ALL), Help("--help", *OF_ALL), Help("help", *OF_ALL),
    Help("help list", *OF_LIST), Help("list --help", *OF_LIST),
    Help("check --help", *OF_CHECK),
    Help("canon -h", *OF_CANON), Help("help canon", *OF_CANON),
    Help("make --help", *OF_MAKE), Help("help make", *OF_MAKE),
    Help("batch --help", *OF_BATCH), Help("help batch", *OF_BATCH),
]

# An example of a help, which has one: a command, and what it prints.
EXAMPLE = re.compile(r"^Example:\n  (.+)\nprints\n((?:  .*\n)+)", re.MULTILINE)


@pytest.mark.parametrize("line, page, expected", EXAMPLES,
                         ids=[f"{line} < {page[:60].decode('latin-1')}" for line, page, _ in EXAMPLES])
def test_example(naplps: str, line: str, page: bytes, expected: Answer) -> None:
    """A worked example has its output, standard error and status."""
    assert answer(naplps, line, page) == expected


def answer_unread(program: str, words: Sequence[Union[str, bytes]]) -> Answer:
    """The answer to wrong words, which leave the page unread and print nothing on standard output."""
    with tempfile.TemporaryFile(buffering=0) as page:
        page.write(POINT_DIGITS)
        page.seek(0)
        result = run([program, *words], stdin=page)
        assert page.tell() == 0, f"{words}: the page was read"
    assert (result.status, result.out) == (2, b""), f"{words}: {result}"
    return result


@pytest.mark.parametrize("line", [*WRONG, *NO_FILES])
def test_wrong_words(naplps: str, line: str) -> None:
    """Wrong words print nothing, read nothing and have a reason, with the status 2; a hint only where a word may be
    meant for a file."""
    result = answer_unread(naplps, line.split(" ") if line else [])
    assert result.err.startswith((b"error: ", EXCLUDED.err))
    assert line in WRONG or HINT not in result.err and LINES_HINT not in result.err


def test_word_that_is_not_utf_8(naplps: str) -> None:
    """A word that isn't UTF-8 is wrong too."""
    assert answer_unread(naplps, ["list", b"\xff"]) == NOT_UTF_8


@pytest.mark.parametrize("line, command", FILES)
def test_hint(naplps: str, line: str, command: str) -> None:
    """A word that may be meant for a file brings the usage and a hint."""
    result = answer_unread(naplps, line.split(" "))
    assert f"\nUsage: {USAGES[command]}\n".encode() in result.err
    assert result.err.endswith(LINES_HINT if command == "make" else HINT)


@pytest.mark.parametrize("line", NO_COMMANDS)
def test_no_command(naplps: str, line: str) -> None:
    """A word that is no command brings the names of the commands."""
    assert answer(naplps, line).err.replace(HINT, b"").endswith(COMMANDS)


@pytest.mark.parametrize("text", NO_BUDGETS)
def test_no_budget(naplps: str, text: str) -> None:
    """A value that is no budget brings the numbers that a budget may be."""
    assert answer(naplps, ["canon", f"--budget={text}"]) == Answer(2, b"", (NO_BUDGET % text + MORE).encode())


def test_options_that_exclude_each_other(naplps: str) -> None:
    """A canonical stream is written as digits or as it is made."""
    assert answer(naplps, "canon --hex --stream", POINT_DIGITS) == EXCLUDED


@pytest.mark.parametrize("around", AROUND)
@pytest.mark.parametrize("word", STRANGE)
def test_strange_word(naplps: str, word: str, around: str) -> None:
    """A stranger's word is shown and acts on no terminal: also a line end in it is an escape."""
    shown = "".join(chr(byte) if 32 <= byte < 127 else f"\\x{byte:02x}" for byte in word.encode("utf-8"))
    result = answer(naplps, [part.replace("%s", word) for part in around.split(" ")])
    assert (result.status, result.out) == (2, b"")
    assert shown.encode("ascii") in result.err
    assert all(byte == 10 or 32 <= byte < 127 for byte in result.err), f"{result.err!r} has control characters"


def charged(count: int) -> bytes:
    """A page without entries that is charged with a number of bytes, the last of them at its end, if there are any."""
    calls, rest = divmod(count, BODY)
    bodies = b"\x1b@!" + bytes(BODY) + b"\x1bE" if calls else b""
    bodies += b'\x1b@"' + bytes(rest) + b"\x1bE"
    return bodies + b"\x1b/z" + b"\x1d!" * calls + b'\x1d"'


@pytest.mark.parametrize("line, budget", BUDGETS)
def test_budget(naplps: str, line: str, budget: int) -> None:
    """A budget is enough for a page that is charged with as many bytes, and not with one more."""
    command = line.split(" ")[0]
    enough, over = charged(budget), charged(budget + 1)
    refusal = f"refused 17 Budget at {len(over) - 1}\n".encode()
    refused = Answer(1, refusal) if command == "check" else Answer(1, b"", refusal)
    for page, expected in ((enough, Answer(0, NO_ENTRIES[command])), (over, refused)):
        result = answer(naplps, line, page.hex().encode() if "--hex" in line else page)
        assert result == expected


@pytest.mark.parametrize("entry", HELPS, ids=[entry.line for entry in HELPS])
def test_help(naplps: str, entry: Help) -> None:
    """Help is printed whole, with the usage of its command, and nothing else, on lines that aren't too wide."""
    result = answer(naplps, entry.line)
    text = result.out.decode("utf-8")
    assert result == Answer(0, result.out)
    assert text.startswith(entry.first) and text.endswith(entry.last), text
    assert [part for part in (f"\nUsage: {USAGES[entry.command]}\n", *entry.parts) if part not in text] == [], text
    assert [line for line in text.split("\n") if len(line) > WIDTH] == []


@pytest.mark.parametrize("command", USAGES)
def test_example_of_help(naplps: str, tmp_path: Path, command: str) -> None:
    """Each help has one example, which prints what it shows."""
    text = answer(naplps, f"{command} --help".strip()).out.decode("utf-8")
    assert text.count("Example") == len(EXAMPLE.findall(text)) == 1, text
    [(line, shown)] = EXAMPLE.findall(text)
    result = run(["sh", "-c", line], env=with_naplps(naplps, tmp_path / "bin"))
    assert result == Answer(0, textwrap.dedent(shown).encode()), line


@pytest.mark.parametrize("line", ["--version", "-V", "--version list --hex"])
def test_version(naplps: str, line: str) -> None:
    """The version is that of the sources, with the form of canonical streams, whatever words follow."""
    assert answer(naplps, line) == Answer(0, f"naplps {sources_version()}, canonical form 2\n".encode())


@pytest.mark.parametrize("name, pattern", [("CHANGELOG.md", r"^## (.*?) - "), ("README.md", r"^Version (.*?), of ")])
def test_version_of_document(name: str, pattern: str) -> None:
    """The first version that a document names is that of the sources."""
    found = re.search(pattern, (TOP / name).read_text("utf-8"), re.MULTILINE)
    assert found and found[1] == sources_version(), f"{name} doesn't begin with the version {sources_version()}"
