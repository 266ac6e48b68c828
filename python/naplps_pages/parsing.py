"""What the words of a command say: its parser is made of what it declares."""
import argparse
import contextlib
import os
import sys
from functools import partial
from textwrap import fill
from typing import Any, Dict, Iterator, List, NoReturn, Optional, cast

from naplps.names import shown

from . import TOOL
from .commands import GROUPS, MODULES, Argument, Given, OneOf, Option, command, in_group, unknown

# argparse makes a formatter for each option, and asks shutil for the width of the terminal, which takes long.
NARROW = partial(argparse.HelpFormatter, width=80)
USAGE = f"{TOOL} COMMAND [ARGUMENT ...]"
HELP = f"`{TOOL} help` lists the commands"
TITLE = "Finds, checks, draws, compares, recovers and makes NAPLPS pages."
MORE = (f"`{TOOL} help COMMAND` describes a command. `{TOOL} FILE` says what a file is. The manual, man {TOOL}, lists "
        "the exit statuses.")
WIDTH = 80
HELPS = ("help", "-h", "--help")


class Parser(argparse.ArgumentParser):
    """A parser that raises OSError where its help can't be printed, with each version of Python.

    `example` is what its help shows; `words` are those that it reads.
    """

    example = ""
    words: List[str] = []

    def format_help(self) -> str:
        """The help, which is as wide as the terminal."""
        self.formatter_class = argparse.HelpFormatter
        example = f"\nexample:\n  {TOOL} {self.example}\n" if self.example else ""
        return super().format_help() + example

    def format_usage(self) -> str:
        """The usage, which is as wide as the terminal."""
        self.formatter_class = argparse.HelpFormatter
        return super().format_usage()

    def error(self, message: str) -> NoReturn:
        """Exits, and says how a file is named whose name was taken for an option."""
        for word in self.words:
            if word.startswith("-") and word != "-" and os.path.lexists(word):
                message += f"; the file {shown(word)} is named ./{shown(word)}"
                break
        super().error(message)

    def refuse_old_words(self, words: List[str]) -> None:
        """Exits where an option is one of earlier versions, and says what it is now."""
        from .old_words import OPTIONS
        for option in (word.partition("=")[0] for word in words):
            if option not in self._option_string_actions and option in OPTIONS:
                super().error(f"{option} is now {OPTIONS[option]}")

    def _print_message(self, message: str, file: Any = None) -> None:
        if file is not None and file is sys.stdout:
            file.write(message)
        else:
            with contextlib.suppress(OSError, AttributeError):
                super()._print_message(message, file)


def parser_of(named: str) -> Parser:
    """The parser of the command of this name."""
    declared = command(named)
    title = declared.help[0].upper() + declared.help[1:] + "."
    made = Parser(prog=f"{TOOL} {named}", description=title, epilog=declared.ending or None, allow_abbrev=False,
                  formatter_class=NARROW)
    made.example = declared.example
    made.set_defaults(parser=made, run=declared.run)
    for part in declared.parts():
        if isinstance(part, Argument):
            made.add_argument(part.to, metavar=part.title, nargs=cast(Any, part.number), type=part.read, help=part.help)
        elif isinstance(part, OneOf):
            group = made.add_mutually_exclusive_group(required=part.is_required)
            for option in part.options:
                _add(group, option)
        else:
            _add(made, part)
    return made


def _add(to: Any, option: Option) -> None:
    """Adds an option."""
    settings: Dict[str, Any] = {"help": option.help, "default": option.default}
    if option.to:
        settings["dest"] = option.to
    if not option.title:
        if option.puts is None:
            settings.update(action="store_true")
        else:
            settings.update(action="store_const", const=option.puts)
    else:
        settings.update(metavar=option.title, type=option.read, required=option.is_required)
        if option.is_repeated:
            settings.update(action="append")
        if option.choices:
            settings.update(choices=option.choices)
    to.add_argument(*([option.short] if option.short else []), option.word, **settings)


def help_lines() -> Iterator[str]:
    """The help on all commands."""
    yield f"usage: {USAGE}\n\n{TITLE}"
    for group in GROUPS:
        yield f"\n{group}:"
        for name in in_group(group):
            text = fill(command(name).help, WIDTH - 14)
            yield f"  {name:10}" + text.replace("\n", "\n" + " " * 12)
    yield "\n" + fill(MORE, WIDTH)


def _help(words: List[str]) -> None:
    """Prints the help, on all commands or on the one that is named."""
    if not words:
        sys.stdout.write("\n".join(help_lines()) + "\n")
    elif words[0] in MODULES:
        sys.stdout.write(parser_of(words[0]).format_help())
    else:
        _fail(words[0])


def _fail(word: str) -> NoReturn:
    """Exits where a word names no command."""
    from .old_words import COMMANDS
    if word in COMMANDS:
        Parser(prog=TOOL, usage=USAGE).exit(2, f"{TOOL}: {word} is now {COMMANDS[word]}\n")
    Parser(prog=TOOL, usage=USAGE).error(f"{unknown(word)} {HELP}")


def read_words(words: List[str]) -> Optional[Given]:
    """What the words say; None where they ask for help, which is printed. Exits where they are wrong."""
    if not words:
        Parser(prog=TOOL, usage=USAGE).error(f"a command is needed; {HELP}")
    first = words[0]
    if first in HELPS:
        _help(words[1:])
        return None
    if first.startswith("-"):
        Parser(prog=TOOL, usage=USAGE).error(f"{shown(first)} stands before the command; {HELP}")
    if first not in MODULES:
        if not os.path.lexists(first):
            _fail(first)
        if any(word.startswith("-") and word != "-" for word in words):
            Parser(prog=TOOL, usage=USAGE).error(f"options need a command; {HELP}")
        from .introduction import given_of
        return given_of(words)
    parser = parser_of(first)
    parser.words = words[1:]
    options = [word for word in words[1:words.index("--") if "--" in words else None] if word.startswith("--")]
    if options:
        parser.refuse_old_words(options)
    given = parser.parse_args(parser.words)
    command(first).check(given)
    return given


