"""Processes that draw pages: workers, the queue of blocks for a report, and the desk of a served one."""
import gc
import resource
import signal
import subprocess
import sys
import threading
from collections import deque
from multiprocessing.connection import Connection, Pipe, wait
from types import FrameType
from typing import Callable, Deque, Dict, Iterable, Iterator, List, NamedTuple, Optional, Sequence, Union

from naplps.client import Client
from naplps.limits import MODEST

from .. import interpreter
from .drawing import (
    Block, Drawing, DrawingLimits, DrawnBlock, DrawnPage, DrawingTask, draw, draw_block, without_drawings,
)

# A process that draws needs less memory than this.
MOST_MEMORY = 1 << 30
ENDED = "the process that drew it ended"
# How long is waited for a process that is told to end, in seconds.
PATIENCE = 2.0
# The number of new objects before Python looks for those that nobody needs; a page has hundreds, a file dozens.
OBJECTS = 100_000


class DrawingOptions(NamedTuple):
    """The program that is asked, how long it may take for a page, and how much is kept of each; and what a box keeps of
    its pages, which is asked before."""

    program: str
    seconds: float
    most: DrawingLimits
    kept: str = ""


class SketchWorker:
    """A process that draws the pages or the blocks that it is given, one after another."""

    def __init__(self, options: DrawingOptions) -> None:
        self.connection, theirs = Pipe()
        with theirs:
            self.process = interpreter.start(__name__, theirs.fileno())
        self._send(options)

    def _send(self, what: object) -> None:
        try:
            self.connection.send(what)
        except OSError:
            pass  # it has ended, which is heard as that

    def give(self, task: Union[DrawingTask, Block]) -> None:
        """Gives it the next page, or a block."""
        self._send(task)

    def has_drawn(self, seconds: float) -> bool:
        """Whether it draws the page, or ends, within these seconds."""
        return self.connection.poll(seconds)

    def drawing(self) -> Optional[Drawing]:
        """The drawing of the page that it was given, when that is made; nothing where the process has ended."""
        try:
            made = self.receive()
        except EOFError:
            return None
        return made if isinstance(made, Drawing) else None

    def receive(self) -> object:
        """What it tells next: a drawing, a page of a block, or the packed block. Raises EOFError where it has ended."""
        try:
            received: object = self.connection.recv()
        except OSError:
            raise EOFError from None
        return received

    def end(self) -> None:
        """Tells the process to end."""
        self.process.terminate()

    def close(self) -> None:
        """Ends the process."""
        self.connection.close()
        self.end()
        try:
            self.process.wait(PATIENCE)
        except subprocess.TimeoutExpired:
            self.process.kill()
            self.process.wait()


def main(descriptor: int) -> None:
    """Draws what the connection asks for, until that ends."""
    signal.signal(signal.SIGTERM, _end)
    resource.setrlimit(resource.RLIMIT_AS, (MOST_MEMORY, resource.getrlimit(resource.RLIMIT_AS)[1]))
    gc.freeze()
    gc.set_threshold(OBJECTS)
    connection = Connection(descriptor)
    options = connection.recv()
    program = Client(options.program, limits=MODEST._replace(seconds=options.seconds))
    draws = _drawer(program, options)
    try:
        while True:
            task = connection.recv()
            made = draw_block(draws, task, connection.send) if isinstance(task, Block) else draws(task)
            connection.send(made)
    except (EOFError, OSError):
        pass  # nobody waits for it any more
    finally:
        program.close()


def _drawer(program: Client, options: DrawingOptions) -> Callable[[DrawingTask], Drawing]:
    """What draws a page."""
    if options.kept:
        from .drawing import kept_drawer  # (a report of no box doesn't wait for it)
        return kept_drawer(program, options.kept, options.most)
    return lambda task: draw(program, task, options.most)


def _end(number: int, _: Optional[FrameType]) -> None:
    sys.exit(128 + number)


# The number of processes in a row that may draw nothing without a fault of the pages.
MOST_STILLBORN = 10
IS_FULL = "the report has no room for more; `naplps-pages report --serve` shows it"


class Room:
    """How many characters of drawings a report still takes."""

    def __init__(self, characters: int) -> None:
        self.characters = characters

    def take(self, pages: Sequence[DrawnPage]) -> Dict[int, str]:
        """Takes those that there is room for, one after another; the places of the others, with the reason."""
        others: Dict[int, str] = {}
        for at, page in enumerate(pages):
            if page.characters > self.characters:
                others[at] = IS_FULL
            else:
                self.characters -= page.characters
        return others


class Share:
    """A process, the block that it has, and the pages of it that it has drawn."""

    def __init__(self, options: DrawingOptions) -> None:
        self.worker = SketchWorker(options)
        self.block: Optional[Block] = None
        self.pages: List[DrawnPage] = []
        self.has_drawn = False

    def give(self, block: Block) -> None:
        """Gives it a block, where it has none. (So it takes all of it before it tells anything.)"""
        self.block, self.pages = block, []
        self.worker.give(block)

    def hear(self, block: Block) -> Optional[DrawnBlock]:
        """Hears of a page of its block, or of the block; that, once it is drawn. Raises EOFError where it ended."""
        received = self.worker.receive()
        if isinstance(received, DrawnPage):
            self.has_drawn |= len(self.pages) not in block.without
            self.pages.append(received)
            return None
        pages, self.block, self.pages = self.pages, None, []
        return DrawnBlock(block, str(received), pages)

    def left(self, block: Block) -> Block:
        """Its block, where it has ended: the page that it was at has no drawing then."""
        behind = [at for at in range(len(self.pages), len(block.pages)) if at not in block.without]
        lost = behind[:1] or range(len(block.pages))  # (all of them where it ended as it packed them)
        return block._replace(without={**dict.fromkeys(lost, ENDED), **block.without})


class BlockQueue:
    """Blocks that wait for one of some processes. These begin at once, and are ended when the queue is left."""

    def __init__(self, options: DrawingOptions, processes: int, room: Room) -> None:
        self.options, self.room = options, room
        self.shares = [Share(options) for _ in range(max(1, processes))]
        self.waiting: Deque[Block] = deque()
        self.done = self.stillborn = 0

    def __enter__(self) -> "BlockQueue":
        return self

    def __exit__(self, *_: object) -> None:
        for share in self.shares:
            share.worker.end()
        for share in self.shares:
            share.worker.close()

    def begin(self, blocks: Iterable[Block]) -> None:
        """Takes the blocks, and gives each process the first that it has to draw."""
        self.waiting.extend(blocks)
        self._give()

    def drawn(self, tell: Callable[[int], None]) -> Iterator[DrawnBlock]:
        """The blocks as they come; `tell` is called with the number of pages that were drawn, again and again.

        A page that ends a process has no drawing, and neither has one that there is no room for.
        """
        while any(share.block for share in self.shares):
            ready = wait([share.worker.connection for share in self.shares if share.block])
            for share in [each for each in self.shares if each.worker.connection in ready]:
                yield from self._heard(share)
                self._give()
            tell(self.done + sum(len(each.pages) for each in self.shares))

    def _give(self) -> None:
        for share in self.shares:
            if self.waiting and share.block is None:
                share.give(self.waiting.popleft())

    def _heard(self, share: Share) -> Iterator[DrawnBlock]:
        assert share.block
        try:
            made = share.hear(share.block)
        except EOFError:
            yield from self._ended(share, share.block)
            return
        self.stillborn = 0 if share.has_drawn else self.stillborn
        if made and self._has_room(made):
            self.done += len(made.pages)
            yield made

    def _has_room(self, made: DrawnBlock) -> bool:
        """Whether there is room for all of a block; what there isn't room for is left out when it is drawn again."""
        block = made.block
        others = {} if block.is_counted else self.room.take(made.pages)
        if others:
            self.waiting.appendleft(block._replace(without={**block.without, **others}, is_counted=True))
        return not others

    def _ended(self, share: Share, block: Block) -> Iterator[DrawnBlock]:
        """Another process continues in place of one that has ended. Where none draws anything, all is lost."""
        self.shares.remove(share)
        share.worker.close()
        self.waiting.appendleft(share.left(block))
        self.stillborn += not share.has_drawn
        if self.stillborn <= MOST_STILLBORN:
            self.shares.append(Share(self.options))
            return
        lost = list(self.waiting)
        self.waiting.clear()
        self.done += sum(len(each.pages) for each in lost)
        yield from (without_drawings(each, ENDED) for each in lost)


TOOK_TOO_LONG = "it isn't drawn in %g s"
CLOSED = "the server ends"


class Desk:
    """Takes pages from many threads at the same time. One that takes long keeps one process alone."""

    def __init__(self, options: DrawingOptions, most: int) -> None:
        """Of the processes there are at most a number; those that there aren't start when they are needed."""
        self.options, self.most = options, most
        self._turns = threading.Semaphore(most)
        self._lock = threading.Lock()
        self._idle: List[SketchWorker] = []
        self._all: List[SketchWorker] = []
        self._closed = False

    def begin(self) -> None:
        """Starts the processes, so that the first pages needn't wait for that."""
        for worker in [self._taken() for _ in range(self.most)]:
            if worker:
                self._put_back(worker, True)

    def drawing(self, task: DrawingTask) -> Drawing:
        """The drawing of a page, or why there is none. Its time begins when a process has it."""
        with self._turns:
            worker = self._taken()
            if worker is None:
                return Drawing(why=CLOSED)
            made: Optional[Drawing] = None
            try:
                worker.give(task)
                if not worker.has_drawn(self.options.seconds):
                    return Drawing(why=TOOK_TOO_LONG % self.options.seconds)
                made = worker.drawing()
                return made or Drawing(why=ENDED)
            finally:
                self._put_back(worker, made is not None)

    def _taken(self) -> Optional[SketchWorker]:
        """A process that draws nothing yet; none once the desk is closed."""
        with self._lock:
            if self._closed:
                return None
            if self._idle:
                return self._idle.pop()
            worker = SketchWorker(self.options)
            self._all.append(worker)
            return worker

    def _put_back(self, worker: SketchWorker, is_free: bool) -> None:
        """Keeps a process for the next page, if it has drawn the last one, and else ends it."""
        with self._lock:
            if is_free and not self._closed:
                self._idle.append(worker)
                return
            if worker in self._all:
                self._all.remove(worker)
        worker.close()

    def close(self) -> None:
        """Ends all processes, whatever they draw."""
        with self._lock:
            self._closed, some = True, self._all
            self._all = []
        for worker in some:
            if worker in self._idle:
                worker.close()
            else:
                worker.end()  # (a thread waits for it yet, and closes it)
