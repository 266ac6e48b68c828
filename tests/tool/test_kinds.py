"""The table of the kinds of lines is that of the sources, of the program itself and of docs/PROFILE.md."""
import os
import re

import pytest

import naplps as nap
from command import TOP
from lines import fields, sample_line
from naplps.entry import HELD, MAKERS, read_line
from naplps.kinds import CHOICES, KEYS, KINDS
from naplps_pages.authoring import translating

NAMES = {
    "Addr": "a", "Code": "c", "Colour": "C", "Cursor": "state", "Mask": "mask", "Parts": "g,r,b", "Pel": "m",
    "Pen": "N", "Point": "p", "Set": "set", "Step": "move", "Times": "on,off,delay", "Word": "n"}
GROUPS = {"Pel Colour Texture": "INK", "Pen Colour Look": "HAND"}


def text(path):
    with open(os.path.join(TOP, *path.split("/")), encoding="utf-8") as file:
        return file.read()


def named(source, kind):
    """The names of a type's values in a source, each with its value, by `named!` and by comparisons."""
    calls = re.findall(r"named!\(\w+, %s:(.*?)\)" % kind, text(source), re.DOTALL)
    return [*re.findall(r'b"([\w-]+)" => (\w+)', " ".join(calls)),
            *re.findall(r'b"([\w-]+)"\) => Some\(%s::(\w+)\)' % kind, text(source))]


def of_sources():
    """The table as crates/nap_make has it."""
    kinds = text("crates/nap_make/src/kind.rt")
    words = {kind: name for name, kind in named("crates/nap_make/src/kind.rt", "Kind")}
    more = re.findall(r'Kind::(\w+) => match rest_after\(rest, b"(\w+) "\) \{\s*Some\(others\) => Some\(\(Kind::(\w+),',
                      kinds)
    words.update({kind: f"{words[first]} {second}" for first, second, kind in more})
    least = dict(re.findall(r"least_points Kind\.(\w+) = (\d+)", text("crates/nap_make/specs/Kinds.antt")))
    rows = {name: "" for name, _ in named("crates/nap_make/src/reading.rt", "Entry")}
    for names, front, last in re.findall(r"((?:Kind::\w+[ |]+)+)=> \{?\s*\(&\[(.*?)\], (\w+)\)", kinds):
        row = " ".join(re.findall(r"\w+", f"{front} {last}"))
        for kind in re.findall(r"Kind::(\w+)", names):
            points = "Point " * int(least[kind]) + ".. " if kind in least else ""
            rows[words.pop(kind)] = points + row
    assert not words
    return rows


def test_the_table_is_that_of_the_sources_and_every_kind_has_an_entry():
    assert list(MAKERS) == list(KINDS) and {type(read_line(sample_line(words))) for words in KINDS} == set(HELD)
    assert of_sources() == KINDS
    choices = [name for kind in ("CharSet", "CursorKind", "Mask", "TextStep")
               for name, _ in named("crates/nap_make/src/attribute.rt", kind)]
    assert sorted(choices) == sorted(name for names in CHOICES.values() for name in names)


@pytest.mark.parametrize("words", KINDS)
def test_the_program_reads_lines_by_the_table(naplps, words):
    def column(some):
        with pytest.raises(nap.NotMade) as told:
            nap.make([" ".join([words, *some])])
        return told.value.column

    right = fields(KINDS[words])
    begins = [len(" ".join([words, *right[:number]])) + 2 for number in range(len(right))]
    for number, begin in enumerate(begins):
        assert column([*right[:number], "?", *right[number + 1:]]) == begin
    # (a point more is one of the shape's; behind a name alone the space is wrong)
    assert column([*right, "?"]) == (begins[-1] if right else len(words) + 1)
    try:
        assert nap.entries(nap.make([sample_line(words)])) == [read_line(sample_line(words))]
    except nap.NotMade as wrong:
        assert wrong.column is None  # the line is one, but can't come first


@pytest.mark.parametrize("words", KINDS)
def test_python_reads_and_writes_lines_by_the_table(words):
    entry = read_line(sample_line(words))
    assert str(entry) == sample_line(words) and entry.kind == words.split()[0]
    assert HELD[type(entry)] == tuple(KEYS[sort] for sort in KINDS[words].split() if sort in KEYS)
    assert translating.translate(sample_line(words)).text.decode() == sample_line(words) + "\n"


def form(words):
    """How PROFILE writes a line."""
    row = KINDS[words]
    for sorts, group in GROUPS.items():
        row = row.replace(sorts, group)
    return " ".join([f"`{words}`", *(f"`{KEYS[sort]}=`{NAMES[sort]}" if sort in KEYS else NAMES.get(sort, sort)
                                     for sort in row.split())])


def test_profile_has_the_table():
    section = text("docs/PROFILE.md").partition("\n## Lines of `list`\n")[2].partition("\n### ")[0]
    forms = {}
    for words in KINDS:
        forms.setdefault(type(read_line(sample_line(words))).__name__, []).append(form(words))
    rows = [f"| {name} | {', '.join(some)} |" for name, some in forms.items()]
    assert section.partition("|---|---|\n")[2].partition("\n\n")[0].split("\n") == rows
    for sort, names in CHOICES.items():
        listed = ", ".join(f"`{name}`" for name in names[:-1])
        assert f"{NAMES[sort]} is {listed} or `{names[-1]}`" in " ".join(section.split())
