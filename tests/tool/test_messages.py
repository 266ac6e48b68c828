"""The messages of naplps-pages stand in one file: each is used, with the fields that it has, and no other is told."""
import ast
import glob
import os
import string

import pytest

from command import PACKAGES
from naplps_pages import messages

TOOL = os.path.join(PACKAGES, "naplps_pages")
FILES = [path for path in sorted(glob.glob(os.path.join(TOOL, "**", "*.py"), recursive=True))
         if path != messages.__file__]
MESSAGES = {name: text for name, text in vars(messages).items() if name.isupper()}
# What a message is given to, besides an exception that is raised.
TELLING = ("tell", "tell_line", "complain", "error", "Unanswered", "ArgumentTypeError")
# Commands have what is wrong with their words, as their help; the others tell of modules and outputs that fail.
ELSEWHERE = ("__main__.py", "cli.py", "parsing.py", "commands")


def parsed(path):
    with open(path, encoding="utf-8") as source:
        return ast.parse(source.read(), path)


def fields(text):
    """The names of the fields of a message."""
    return {name for _, name, _, _ in string.Formatter().parse(text) if name is not None}


def uses(tree):
    """The messages that a source names, and what each is given: the names of the fields, or None."""
    given = {id(call.func.value): call for call in ast.walk(tree) if isinstance(call, ast.Call)
             and isinstance(call.func, ast.Attribute) and call.func.attr == "format"}
    for node in ast.walk(tree):
        if isinstance(node, ast.Attribute) and isinstance(node.value, ast.Name) and node.value.id == "messages":
            call = given.get(id(node))
            assert not call or not call.args, node.attr
            yield node.attr, {part.arg for part in call.keywords} if call else None


@pytest.mark.parametrize("path", FILES, ids=lambda path: os.path.relpath(path, TOOL))
def test_messages_are_given_their_fields(path):
    for name, given in uses(parsed(path)):
        assert name in MESSAGES and (given or set()) == fields(MESSAGES[name]) and given != set(), name


def test_each_message_is_used():
    assert {name for path in FILES for name, _ in uses(parsed(path))} == set(MESSAGES)


def has_words(node):
    """Whether it is a text with a letter and a blank."""
    return (isinstance(node, ast.Constant) and isinstance(node.value, str) and " " in node.value
            and any(map(str.isalpha, node.value)))


def told(tree):
    """The texts that a source raises or tells, and the constants of it that have such a text."""
    constants = {target.id: node.value for node in tree.body if isinstance(node, ast.Assign)
                 for target in node.targets if isinstance(target, ast.Name)}
    for node in ast.walk(tree):
        name = getattr(node.func, "attr", getattr(node.func, "id", "")) if isinstance(node, ast.Call) else ""
        if name in TELLING or isinstance(node, ast.Raise) or name == "write" and "stderr" in ast.dump(node.func):
            for part in ast.walk(node):
                if has_words(part):
                    yield part.value
                elif isinstance(part, ast.Name) and any(map(has_words, ast.walk(constants.get(part.id, part)))):
                    yield part.id


@pytest.mark.parametrize("path", FILES, ids=lambda path: os.path.relpath(path, TOOL))
def test_no_message_stands_in_the_code_that_tells_it(path):
    if os.path.relpath(path, TOOL).split(os.sep)[0] not in ELSEWHERE:
        assert list(told(parsed(path))) == []
