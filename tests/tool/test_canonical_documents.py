"""What docs/CANONICAL.md shows: its bytes, its page, its tables beside the readers, its commands, and its length."""
import os
import re
import subprocess

import pytest

from canonical_trial import asked, spoken
from command import TOP
from naplps import canonical
from samples import has

from dev.vectors.notation import bytes_of

with open(os.path.join(TOP, "docs", "CANONICAL.md"), encoding="utf-8") as document:
    TEXT = document.read()
CODES = r"`([0-9A-F][0-9A-F*0-9 ]*)`"


def table(heading, number=0):
    """The rows of a table below a heading, as lists of fields."""
    section = TEXT.split(f"\n## {heading}\n")[1].split("\n## ")[0]
    found = re.findall(r"(?:^\|.*\n)+", section, re.MULTILINE)[number]
    return [[field.strip() for field in line.strip("|").split(" | ")] for line in found.splitlines()[2:]]


def test_the_page_byte_by_byte(naplps):
    stream, lines = b"", []
    for offset, data, _, line in table("A page, byte by byte"):
        assert int(offset) == len(stream)
        stream += bytes_of(data.strip("`"))
        lines += [(len(stream), line.strip("`"))] if line else []
    [program] = asked(naplps, [stream])
    assert program.canonical == stream and program.lines.decode("ascii").splitlines() == [line for _, line in lines]
    assert [entry.line for entry in canonical.read(stream)] == [line for _, line in lines]


OPERANDS = {"P": ("26 {}", "POINT {} pel=0,0 colour=own-start"),
            "D": ("21 5F {} 26 40*8", "POINT 0,0 pel={} colour=own-start"),
            "G": ("3C {} 26 40*8", "POINT 0,0 pel=0,0 colour=direct:{}"),
            "A": ("3E {} 26 40*8", "POINT 0,0 pel=0,0 colour=front:{}")}


@pytest.mark.parametrize("data, kind, value", table("Operands", 1))
def test_operands(naplps, data, kind, value):
    stream, line = OPERANDS[kind]
    stream = bytes_of("0E 21 5F " + stream.format(data.strip("`")))
    line = line.format(value.split(":")[0])
    [program] = asked(naplps, [stream])
    assert [entry.line for entry in canonical.read(stream)] == [line] == program.lines.decode("ascii").splitlines()


# What each operand of the tables may be, on the unit screen.
SPELLED = {"P": "49 40*7", "D": "49 40*7", "G": "52 40*7", "A": "44 40*3", "W": "40", "`5F`": "5F", "nothing": "",
           "+": "", "(P": "49 40*7", "P)+": "49 40*7", "D)+": "49 40*7", "P+": "49 40*7", "D+": "49 40*7"}


def runs():
    """The runs that the table of opcodes has, with the kinds of the entries that these make."""
    for opcodes, run, does in table("Opcodes"):
        kinds = re.findall(r"\b[A-Z]{3,}(?:-[A-Z]+)?\b", does)
        choices = [part for part in re.split(r", or | or |, ", run) if part]
        for number, opcode in enumerate(re.findall(CODES, opcodes)):
            for choice, words in enumerate(choices):
                kind = kinds[max(number, choice) if len(kinds) > 1 else 0] if kinds else ""
                yield opcode, " ".join(SPELLED[word] for word in words.split(" ")), kind


@pytest.mark.parametrize("opcode, run, kind", list(runs()))
def test_opcodes_and_their_runs(naplps, opcode, run, kind):
    stream = bytes_of(f"0E 21 5F 24 40*8 {opcode} {run} 07")
    kinds = [entry.kind for entry in canonical.read(stream)]
    assert kinds == [*([kind] if kind else []), "BELL"]
    [program] = asked(naplps, [stream])
    assert [line.split()[0] for line in program.lines.decode("ascii").splitlines()] == kinds
    if run:
        cut = bytes_of(f"0E 21 5F 24 40*8 {opcode} {run} 40 07")
        assert spoken(cut).line in ("refused BadOperands at 12", spoken(stream).line) or opcode == "20"


def test_it_has_2000_words_at_most_and_nineteen_opcodes():
    assert len(TEXT.split()) <= 2_000
    named = [int(each, 16) for opcodes, _, _ in table("Opcodes") for each in re.findall(CODES, opcodes)]
    assert sorted(named) == sorted(canonical._RUNS) and len(named) == 19


def controls():
    """The controls of the table, with 41 for an argument, each after a character."""
    for bytes_, does in table("Controls"):
        for spelled in re.findall(r"`[0-9A-F ]+`(?: [a-z]\b| `[0-9A-F ]+`)*", bytes_):
            kind = re.search(r"entry ([A-Z][A-Z-]+)", does)
            data = re.sub(r" [a-z]\b", " 41", spelled.replace("`", ""))
            yield data, kind[1] if kind else ""


@pytest.mark.parametrize("data, kind", list(controls()))
def test_controls(naplps, data, kind):
    before = "1B 43 41 0F 41 " if data == "1B 45" else "0F 41 "
    after = " 1B 45" if data in ("1B 43 41", "1B 44 41") else ""
    stream = bytes_of(f"0E 21 5F {before}{data}{after}")
    kinds = [entry.kind.split("-ST")[0] for entry in canonical.read(stream)]
    [program] = asked(naplps, [stream])
    assert program.lines is not None and len(program.lines.splitlines()) == len(kinds)
    kinds = [each for each in kinds if each != "GLYPH" or kind == "GLYPH"]
    assert kinds == ["CHAR", *([kind.split("-ST")[0]] if kind else []), *(["END"] if after else [])]


@pytest.mark.skipif(not (has("cc") and has("node")), reason="not tried: there is no cc, or no node")
def test_the_commands(naplps, tmp_path):
    commands = re.findall(r"^      (\S.*)$", TEXT, re.MULTILINE)
    assert len(commands) == 4
    for name in ("examples", "python", "browser"):
        os.symlink(os.path.join(TOP, name), tmp_path / name)
    os.symlink(naplps, tmp_path / "naplps")
    said = [subprocess.run(["sh", "-c", each], cwd=tmp_path, capture_output=True, check=True, text=True).stdout
            for each in commands]
    assert said[0] == "" and " FERRY" in said[1] and said[2] == said[3] and "CHAR primary 46" in said[2]


def test_vectors_run_tries_canonical_streams(naplps):
    words = [os.path.join(TOP, "vectors", "run"), "--canonical"]
    reader = os.path.join(TOP, "python", "naplps", "canonical.py")
    some = [os.path.join(TOP, "vectors", name) for name in ("lines.rows", "not-canonical.txt")]
    said = subprocess.run([*words, reader, *some], capture_output=True, text=True)
    assert said.returncode == 0 and said.stderr == "" and said.stdout.endswith(" passed, 0 failed\n")
    assert [int(each) > 50 for each in re.findall(r": \d+ of (\d+)", said.stdout)] == [True] * 2
    said = subprocess.run([*words, naplps, *some], capture_output=True, text=True)
    assert said.returncode == 1 and "lines: " in said.stdout and "FAILED # BadHeader: A page" in said.stdout
