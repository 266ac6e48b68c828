"""The commands: each is a module here, which declares its words, its options and its place in the help, and runs it.

Its parser and its help are made of that, and so are the completions of shells and the synopses of the manual page. A
help imports what declares its commands, so what a run takes besides is imported by the functions of the run.
"""
import argparse
import importlib
import os
from typing import TYPE_CHECKING, Any, Callable, Iterator, List, NamedTuple, Optional, Tuple, Union

from naplps.limits import MODEST, MOST_BUDGET, USUAL_BUDGET, Limits
from naplps.names import shown

from .. import STORE_OF_BOX, messages

if TYPE_CHECKING:
    from ..page_session import OfStore, Session

Given = argparse.Namespace
LEAST_SECONDS, MOST_SECONDS = 0.01, 1e6
# The greatest number of processes that work, or draw.
MOST_PROCESSES = 512
# What shells complete a value to.
FILES, FOLDERS = "files", "folders"
# What people want to do with a command, in the order of the help.
COLLECTION_GROUP, PAGE_GROUP, MAKE_GROUP = GROUPS = ("Look into a box of files", "Work on pages", "Make pages")
MODULES = tuple(sorted(file[:-3] for file in os.listdir(os.path.dirname(os.path.abspath(__file__)))
                       if file.endswith(".py") and not file.startswith("_")))
NOTHING_OVERWRITTEN = "No file is overwritten."


def name(text: str) -> str:
    """The name of a file or a folder. (The system takes an empty one for the current folder, or for nothing.)"""
    if not text:
        raise argparse.ArgumentTypeError(messages.EMPTY_NAME)
    return text


def number(least: int, most: int) -> Callable[[str], int]:
    """What reads a whole number of a range."""
    def read(text: str) -> int:
        if not text.isascii() or not text.isdigit() or len(text) >= 20 or not least <= int(text) <= most:
            raise argparse.ArgumentTypeError(messages.NUMBER_OUTSIDE.format(least=least, most=most, text=text))
        return int(text)
    return read


def seconds(text: str) -> float:
    """A number of seconds."""
    try:
        count = float(text)
    except ValueError:
        count = 0.0
    if not LEAST_SECONDS <= count <= MOST_SECONDS:
        raise argparse.ArgumentTypeError(
            f"a number of seconds from {LEAST_SECONDS:g} to {MOST_SECONDS:.0f}, not {text!r}")
    return count


class Argument(NamedTuple):
    """What a command takes by its place: its name in what is given, that in the help, and how many there are."""

    to: str
    title: str
    help: str
    number: Union[int, str, None] = None
    # (in the synopsis, where that is another)
    shown_as: str = ""
    read: Callable[[str], Any] = name


class Option(NamedTuple):
    """An option: what is said of it, and of its value, if it has one."""

    word: str
    help: str
    title: str = ""
    read: Callable[[str], Any] = name
    completes: str = ""
    default: Any = None
    to: str = ""
    # (what a flag puts into what is given, where that isn't True)
    puts: Optional[str] = None
    choices: Tuple[str, ...] = ()
    is_required: bool = False
    is_repeated: bool = False
    # (one letter for it, with its hyphen)
    short: str = ""


class OneOf(NamedTuple):
    """Options that exclude each other."""

    options: Tuple[Option, ...]
    is_required: bool = False


Part = Union[Argument, Option, OneOf]


def nothing_more(_: Given) -> None:
    """Finds nothing wrong with what is given."""


class Command(NamedTuple):
    """A command: its help, its words, and what runs it with what is given and the path of the tool."""

    help: str
    parts: Callable[[], List[Part]]
    run: Callable[[Given, str], int]
    # (what people type, after the name of the tool)
    example: str
    # (looks for what the words alone don't say, and exits where that is wrong)
    check: Callable[[Given], None] = nothing_more
    ending: str = ""
    # (its place in the help: its group, and its rank there)
    group: str = ""
    rank: int = 0


def command(named: str) -> Command:
    """The command of this name, whose module is imported once it is asked for."""
    found: Command = importlib.import_module(f".{named}", __name__).COMMAND
    return found


def in_group(group: str) -> List[str]:
    """The commands of a group in their order."""
    return [name for _, name in sorted((it.rank, name) for name, it in (
        (name, command(name)) for name in MODULES) if it.group == group)]


def unknown(word: str) -> str:
    """The message on a word that is neither a command nor a file: it names the command that is spelled almost so."""
    import difflib  # (which takes long to be imported)
    near = difflib.get_close_matches(word, MODULES, 1)
    return f"there is no command, and no file, {shown(word)};" + (f" did you mean {near[0]}?" if near else "")


def options(parts: List[Part]) -> Iterator[Option]:
    """The options among the words of a command."""
    for part in parts:
        if isinstance(part, Option):
            yield part
        elif isinstance(part, OneOf):
            yield from part.options


def on_pages(work: "Callable[[Session], int]", of_store: str = "", on_store: "Optional[OfStore]" = None,
             limits: Limits = MODEST) -> Callable[[Given, str], int]:
    """What runs a function on pages, as `page_session.on_pages` does."""
    def run(given: Given, tool: str) -> int:
        from ..page_session import on_pages as running
        return running(given, tool, work, limits, of_store, on_store)
    return run


def store(text: str) -> str:
    """The name of a store; of the folder of a box that of the store in it."""
    inside = os.path.join(name(text), STORE_OF_BOX)
    return inside if os.path.isfile(inside) else text


# What several commands have in common.
JSON = Option("--json", "print JSON, one object per line", to="form", puts="json", default="text")
CSV = Option("--csv", "print a table as CSV", to="form", puts="csv", default="text")
PRINT0 = Option("--print0", "print only file names, each followed by NUL", to="form", puts="null", default="text",
                short="-0")
JSON_ALONE = Option("--json", JSON.help, default=False)
PREVIOUS = Option("--previous", "a page that came before, whose macros, colours and character sets are still "
                  "there; repeat it for several, in their order", "PAGE", completes=FILES, is_repeated=True)
BUDGET = Option("--budget", f"how many bytes of macros a page may expand, 0 to {MOST_BUDGET}; the default is "
                f"{USUAL_BUDGET}", "N", number(0, MOST_BUDGET), default=USUAL_BUDGET)
TIMEOUT = Option("--timeout", "how many seconds a page may take; the default is 20", "SECONDS", seconds, default=20.0)
JOBS = Option("--jobs", "how many processes to use; the default is one per processor", "N", number(1, MOST_PROCESSES),
              short="-j")
OUTPUT = Option("--output", "", "OUT", completes=FILES, short="-o")
OF_PAGE = "a file; PACK!MEMBER, a file in a pack; or -, standard input"
PAGES = Argument("pages", "PAGE", OF_PAGE, "+")
PAGES_OR_STORE = Argument("pages", "PAGE", f"{OF_PAGE}. Or a STORE, for all files in it", "+", "store | page", store)
STORE = Argument("store", "STORE", "a file that `scan` made, or a folder that `box` made", read=store)
# What is said of a store where pages are wanted: it is taken alone, or by another command.
ALONE = "it is a store, which is taken alone, without other pages"
OF_STORE = "it is a store: `naplps-pages %s"
FILES_OF_STORE = OF_STORE % "files STORE` prints what is in one"
TWICE = "- stands for standard input, and can be named once"


def skipped(*names: str) -> Option:
    """The option that names what a command doesn't do."""
    return Option("--skip", "leave something out of a new store: " + "; ".join(
        f"{each}, {SKIPPED[each]}" for each in names) + ". Can be repeated", "WHAT", str, choices=names,
                  is_repeated=True)


SKIPPED = {"words": "it keeps no text, and `find` finds nothing", "repair": "refused pages aren't repaired",
           "carve": "refused files aren't searched for pages"}


def require_one_standard_input(given: Given) -> None:
    """Exits where standard input is named twice."""
    if [*given.pages, *(getattr(given, "previous", None) or [])].count("-") > 1:
        given.parser.error(TWICE)
