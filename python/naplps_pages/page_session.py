"""The run of a command on single pages, with its status."""
import os
import sys
from typing import TYPE_CHECKING, Any, Callable, Dict, Iterable, Iterator, List, Optional, Sequence, TypeVar

from naplps.answers import NONSENSE, Answer, Refusal, Unanswered
from naplps.client import Client, find
from naplps.faults import NoProgram, NotALine
from naplps.limits import MODEST, Limits
from naplps.names import shown

from .console import ACCEPTED, FAILED, REFUSED, NotWritten, Output, OutputLost, tell
from .source import Page, Unread, is_store, read

if TYPE_CHECKING:
    from argparse import Namespace

    from naplps.names import Members

    from .collection.progress import Progress
    from .free_names import Making
    from .listing import Earlier, Heard, Listed

Item = TypeVar("Item")
# The options that a session has.
OPTIONS = ("json", "into", "output_file", "format", "guess", "min_entries", "scale", "baud", "only",
           "is_sheet", "explain")


class Session:
    """One run of a command, with its options."""

    json: bool = False
    # (the folder, or the one file, in which what is made is put; else it is printed)
    into: Optional[str] = None
    output_file: Optional[str] = None
    format: str = ""
    guess: bool = False
    min_entries: int = 0
    scale: int = 1
    baud: int = 1200
    only: Optional[str] = None
    explain: bool = False
    # (whether the one file has a picture of all pages)
    is_sheet: bool = False
    # (what is told of a store in place of a page, where that isn't asked about as any file)
    of_store: str = ""
    # (by what the page at work is treated; and whether refusals are counted, and not told each)
    treated: str = ""
    is_quiet: bool = False
    status: int = ACCEPTED
    # (whether a folder was named, for the files in it)
    is_several: bool = False
    # (whether the last file got the usual path)
    is_usual: bool = True
    progress: "Optional[Progress]" = None

    def __init__(self, program: Client, names: List[str], after: "Optional[Earlier]" = None, **options: Any) -> None:
        self.program, self.names, self.after = program, names, after
        self.output = Output(sys.stdout.buffer)
        self.paths: Dict[str, str] = {}
        self.reader: Callable[[str, float], Page] = read
        assert all(hasattr(self, name) for name in options)
        vars(self).update(options)

    @property
    def earlier(self) -> "Earlier":
        """The pages that come before, if there are any."""
        if self.after is None:
            from .listing import Earlier  # (what few need, the others don't wait for)
            self.after = Earlier()
        return self.after

    def fail(self, status: int) -> None:
        """Keeps the gravest status."""
        self.status = max(self.status, status)

    def complain(self, name: str, reason: str, status: int = FAILED) -> None:
        """Tells what is wrong with a page, which has this status."""
        self.tell(f"{shown(name)}: {reason}")
        self.fail(status)

    def tell(self, line: str) -> None:
        """A line on standard error, after what was printed."""
        self.output.flush()
        if self.progress is not None:
            self.progress.clear()
        tell(line)

    def take_folders(self) -> None:
        """Puts the files in a folder, and below it, in its place, and the members of a pack in that of it."""
        from .folder_files import files_in, has_files
        self.is_several = any(map(has_files, self.names))
        self.names = [file for name in self.names for file in files_in(name, self.complain)]

    def tell_refused(self, name: str, answer: Answer, more: str = "") -> None:
        """Tells that a page is refused, if it is, and more; where refusals are told at all."""
        if isinstance(answer, Refusal) and not self.is_quiet:
            self.tell(f"{shown(name)}: {answer.line}{more}")

    def front(self, name: str) -> str:
        """What stands before the answer to a page: its name, where there are several."""
        return f"{shown(name)}: " if len(self.names) > 1 or self.is_several else ""

    def title(self, page: Page) -> str:
        """What stands below the picture of a page where there are several."""
        return shown(page.name)

    def path_for(self, name: str, ending: str = "", making: "Optional[Making]" = None) -> str:
        """The path of the file for a page in the folder that is given, where folders are made. Raises NotWritten.

        `making` names the files that are made of it, where these are others.
        """
        assert self.into is not None
        from .new_files import below, make_folders
        if name not in self.paths:
            self.paths.update(below(self.names))
        path = self.paths[name] + ending
        if os.path.dirname(path):
            make_folders(self.into, path)
        return os.path.join(self.into, path)

    def deliver(self, name: str, made: bytes, ending: str = "") -> None:
        """Hands on what was made of a page: into the folder, to the one file, or to standard output."""
        if self.into is None and self.output_file is None:
            self.output.bytes(made)
            return
        from .new_files import put, put_inside
        if self.into is not None:
            put_inside(self.path_for(name, ending), made)
        elif self.output_file is not None:
            put(self.output_file, made)

    def deliver_lines(self, name: str, lines: Sequence[str]) -> None:
        """Hands on lines of text, with the name of the page in front where those of several are printed."""
        front = self.front(name) if self.into is None and self.output_file is None else ""
        text = "".join(f"{front}{line}\n" for line in lines)
        self.deliver(name, text.encode("utf-8", "backslashreplace"), ".txt")

    def path_members(self, path: str) -> "Members":
        """What the note of a file tells of its path, where that isn't the usual one."""
        if self.is_usual:
            return {}
        from .notes import path_members
        return path_members(os.path.relpath(path, self.into))

    def answered(self, page: Page, answer: Answer) -> bool:
        """Keeps the status of an answer, and tells where there is none; whether there is one."""
        if isinstance(answer, Unanswered):
            self.complain(page.name, answer.reason)
            return False
        if isinstance(answer, Refusal):
            self.fail(REFUSED)
        return True

    def takes(self, _listed: "Listed") -> bool:
        """Whether what a page draws is shown."""
        return True

    def heard(self, page: Page) -> "Heard":
        """The answer to a page with its entries, after the earlier pages if there are any."""
        from .listing import heard
        return heard(self.program, self.earlier, page)

    def answer_to(self, page: Page) -> Answer:
        """The answer to a page alone, after the earlier pages if there are any."""
        return self.program.ask("check", page) if self.after is None else self.heard(page).last.answer

    def print_answer(self, page: Page, answer: Answer, **more: object) -> None:
        """Prints an answer as JSON."""
        from .schema import answered, dumps
        self.output.line(dumps({**answered(page.name, answer), **more}))

    def each(self, work: Callable[[Page], None], more: Sequence[str] = ()) -> int:
        """Does the work for each page; the status of the whole. `more` names what JSON has beside the answer."""
        for name in self.names if len(self.names) == 1 else self.told(self.names, len(self.names)):
            try:
                self._work_on(name, work, more)
            except (OutputLost, BrokenPipeError):
                raise
            except Exception as error:  # pylint: disable=broad-except
                from .unexpected import failure_message, status_of
                self._without(name, failure_message(error), more, status_of(error))
        self.output.flush()
        return self.status

    def told(self, items: Iterable[Item], total: int) -> Iterator[Item]:
        """The items, of which a terminal is told how many are done where answers aren't printed on one."""
        is_printed = self.into is None and self.output_file is None and sys.stdout.isatty()
        if total <= 1 or is_printed or sys.stderr is None or not sys.stderr.isatty():
            yield from items
            return
        from .collection.progress import Progress
        self.progress = Progress(sys.stderr, lambda: total)
        self.output = self.output._replace(before=self.progress.clear)
        for done, item in enumerate(items):
            self.progress.show(done)
            yield item
            self.output.flush()
        self.progress.clear()

    def _work_on(self, name: str, work: Callable[[Page], None], more: Sequence[str]) -> None:
        """Does the work for a page, or answers why it has no answer."""
        try:
            self._hand(name, work)
        except (OutputLost, BrokenPipeError):
            raise
        except Unread as error:
            self._without(name, str(error), more, error.status)
        except NotALine:
            self._without(name, NONSENSE, more, was_read=True)
        except NotWritten as error:
            tell(str(error))
            self.fail(FAILED)

    def _hand(self, name: str, work: Callable[[Page], None]) -> None:
        page: Optional[Page] = None
        try:
            page = self.reader(name, self.program.limits.seconds)
            if self.of_store and is_store(page):
                raise Unread(self.of_store)
            work(page)
        finally:
            if page and page.file:
                page.file.close()

    def _without(self, name: str, reason: str, more: Sequence[str], status: int = FAILED,
                 was_read: bool = False) -> None:
        """Tells of a page of which there is nothing to say."""
        self.complain(name, reason, status)
        if self.json:
            from .schema import answered, dumps, unread
            members = answered(name, Unanswered(reason)) if was_read else unread(name, reason)
            self.output.line(dumps({**members, **dict.fromkeys(more)}))


# What runs a command on the files of a store.
OfStore = Callable[["Namespace", Client, "Optional[Earlier]"], int]


def on_pages(given: "Namespace", tool: str, work: Callable[[Session], int], limits: Limits = MODEST, of_store: str = "",
             on_store: Optional[OfStore] = None) -> int:
    """Runs a command on pages; the status. `of_store` is told where one of them is a store, `on_store` takes one that
    is named alone, and `tool` is the path of the tool, beside which naplps may stand."""
    try:
        client = Client(find(tool), given.budget, limits._replace(seconds=given.timeout))
        try:
            return _work(client, given, work, of_store, on_store)
        finally:
            client.close()
    except (NoProgram, NotWritten, Unread) as error:
        tell(str(error))
        return FAILED


def _work(client: Client, given: "Namespace", work: Callable[[Session], int], of_store: str,
          on_store: Optional[OfStore]) -> int:
    after: Optional["Earlier"] = None
    is_of_store = on_store is not None and _is_store(given.pages)
    if getattr(given, "previous", None):
        from .listing import read_earlier
        after = read_earlier(given.previous, given.timeout)
    if on_store is not None and is_of_store:
        return on_store(given, client, after)
    options = {name: value for name, value in vars(given).items() if name in OPTIONS}
    return work(Session(client, given.pages, **options, of_store=of_store, after=after))


def _is_store(pages: List[str]) -> bool:
    """Whether there is one name, and it is that of a store."""
    if len(pages) != 1:
        return False
    from .collection.store_files import is_store as has_header
    return has_header(pages[0])
