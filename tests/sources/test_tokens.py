"""What counts of a source: each token does; comments, blank lines and layout don't."""
import re
from typing import Callable, Dict, List

import pytest
from hypothesis import given, settings
from hypothesis import strategies as st

from dev.layout import TOP
from dev.rattle.logic import tokens_of_logic
from dev.rattle.tokens import tokens_of_rattle

Tokens = Callable[[str], List[str]]

WORDS = (
    "fn", "low", "x1", "'a", "'x'", "b'\\''", '"//"', '"/* \\" "', 'r#"a " // b"#', 'b"*/"', "0x1F", "a.b", "a::b",
    "->", "+=", "!x", "&mut", "#[inline]", "(", ")", "{", "}", ";", ",", "a/b", "*", "<T>", "'static", "1..2", "?", "→",
)
GAPS = (
    " ", "\n", "\n\n   ", " // a \"quote\" and 'one\n", " /* a /* b\n */ \" */ ", "\n//! all\n",
    " // /* no end\n", "\t",
)
NAMES = ("f", "x'", "n+n", "a--b", "→", "(", ")", "«in»", '"-- no"', '"{-"', "λ", "x.y", "=", "◌+◌", "|", "?", "-")
LOGIC_GAPS = (" ", "  ", "   ")
ENDS = ("\n", "  \n", " -- it's \"a\n", "\n\n", "\n-- {- no\n", "\n {- a {- b\n -} -}\n", " --x\n")
INDENTS = ("", "  ", "    ")
LINES = st.lists(st.lists(st.sampled_from(NAMES), min_size=1, max_size=6), min_size=1, max_size=6)
# Two texts that have other tokens; and two that have the same ones.
OTHER_RATTLE = (
    ("a b", "ab"), ("a > > b", "a >> b"), ('"a // b"', '"a // c"'), ('"a"', '"a "'), ("'a'", "'b'"), ("f(a)", "f(b)"),
    ("x /* a */ y", "x y z"), ("'a x", "'b x"), ("1", "2"), ("r#\"a\"#", "r#\"b\"#"), ("n + n", "n+n"),
    ("/* a */ /* */ b", "/* a /* */ b */"), ("ensures { a -- b\n }", "ensures { a -- c\n }"),
    ("ensures { a//b }\n", "ensures { a//c }\n"), ("ghost x = { a /* b */ };", "ghost x = { a };"),
    ("ensures { f x'\"// a\" }", "ensures { f x'\"// b\" }"),
)
SAME_RATTLE = (
    ("f(a, b)", "f( a,\n   b )"), ("x\n    .y()", "x.y()"), ("a // b\n", "a"), ("/// says\nfn f() {}", "fn f()\n{\n}"),
    ("/* a /* b */ c */ d", "d"), ("let x = \"a\";", "let  x =\n    \"a\" ;"), ("'\"' // '\"'", "'\"'"),
)
OTHER_LOGIC = (
    ("f x--y", "f x--z"), ('f "-- a"', 'f "-- b"'), ("f = do x\n       y", "f =  do x\n       y"), ("f\n g", "f\ng"),
    ("{-- a --} f", "{-- b --} f"), ("f {- a", "f {- b"), ('f "a  b"', 'f "a b"'),
)
SAME_LOGIC = (
    ("f (--a\n x)", "f (\n x)"), ("f {- \"-}", "f"), ("f -- \"", "f"), ("f {- -- -}\n", "f"), ("--", ""),
    ("f --x", "f"), ("{- {- -} -} -- a\nf", "f"), ("f  x", "f x"),
)
OF: Dict[str, Tokens] = {".rt": tokens_of_rattle, ".antt": tokens_of_logic}
OTHER = [(tokens_of_rattle, *texts) for texts in OTHER_RATTLE] + [(tokens_of_logic, *texts) for texts in OTHER_LOGIC]
SAME = [(tokens_of_rattle, *texts) for texts in SAME_RATTLE] + [(tokens_of_logic, *texts) for texts in SAME_LOGIC]


def stripped(suffix: str, text: str) -> str:
    """A source of the tree without its comments, which are all begun by // or --, and a file of the logic without its
    empty lines too."""
    if suffix == ".rt":
        return re.sub(r'("(?:\\.|[^"\\])*"|b?\'(?:\\.|[^\'\\])\')|//[^\n]*', lambda found: found[1] or "", text)
    text = re.sub(r'("[^"\n]*")|(?:^|(?<=[ (]))--[^\n]*', lambda found: found[1] or "", text, flags=re.MULTILINE)
    return "\n".join(line for line in text.split("\n") if line.strip())


@settings(max_examples=300)
@given(st.lists(st.sampled_from(WORDS), min_size=1, max_size=20), st.data())
def test_gaps_of_rattle_do_not_count(words: List[str], data: st.DataObject) -> None:
    gaps = data.draw(st.lists(st.sampled_from(GAPS), min_size=len(words), max_size=len(words)))
    text = "".join(word + gap for word, gap in zip(words, gaps))
    assert tokens_of_rattle(text) == tokens_of_rattle(" ".join(words) + " ")


@settings(max_examples=300)
@given(LINES, st.data())
def test_comments_of_the_logic_do_not_count(lines: List[List[str]], data: st.DataObject) -> None:
    """Comments, empty lines and blanks within a line change nothing; a line's place does."""
    has_text = any('"' in name for line in lines for name in line)
    gaps = LOGIC_GAPS[:1] if has_text else LOGIC_GAPS
    plain = moved = other = ""
    for line in lines:
        place, gap, end = (data.draw(st.sampled_from(choices)) for choices in (INDENTS, gaps, ENDS))
        plain += f"{place}{' '.join(line)}\n"
        moved += f" {place}{' '.join(line)}\n"
        other += place + gap.join(line) + end
    assert tokens_of_logic(plain) == tokens_of_logic(other)
    assert tokens_of_logic(plain) != tokens_of_logic(moved)


@pytest.mark.parametrize("tokens, choices, more", [
    (tokens_of_rattle, WORDS, ('"// "', '"/"')), (tokens_of_logic, NAMES, ("a--c", '"-- n"')),
])
@settings(max_examples=300)
@given(data=st.data())
def test_words_count(tokens: Tokens, choices: List[str], more: List[str], data: st.DataObject) -> None:
    words = data.draw(st.lists(st.sampled_from(choices), min_size=1, max_size=12))
    place, word = data.draw(st.integers(0, len(words) - 1)), data.draw(st.sampled_from((*choices, *more)))
    before = tokens(" ".join(words))
    for other in ([*words[:place], word, *words[place + 1 :]], [*words[:place], *words[place + 1 :]], [*words, word]):
        if other != words:
            assert before != tokens(" ".join(other))


@pytest.mark.parametrize("tokens, text, other", OTHER)
def test_texts_with_other_tokens(tokens: Tokens, text: str, other: str) -> None:
    assert tokens(text) != tokens(other)


@pytest.mark.parametrize("tokens, text, other", SAME)
def test_texts_with_the_same_tokens(tokens: Tokens, text: str, other: str) -> None:
    assert tokens(text) == tokens(other)


def test_comments_of_all_sources_do_not_count() -> None:
    """A copy without comments, with other empty lines, is the same to the token; so no file counts byte by byte."""
    paths = [path for path in sorted(TOP.glob("crates/*/*/**/*"))
             if path.suffix in OF and "out" not in path.relative_to(TOP).parts[:3]]
    assert len(paths) > 900
    for path in paths:
        text, tokens = path.read_text("utf-8"), OF[path.suffix]
        assert tokens(text) == tokens(f"\n{stripped(path.suffix, text)}\n\n"), path
