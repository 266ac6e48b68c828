"""The program naplps: where it is, which version, processes of it, each in a group of its own and with limits, and what
of the environment counts for these; and the one client of `naplps batch`.

The client asks about one page or about many ahead, and about a page that is too long for a request by a process of its
own.
"""
import os
import resource
import selectors
import signal
import stat
import subprocess
import time
from typing import IO, Callable, Dict, List, NamedTuple, Optional, Protocol, Sequence, Tuple, Union

from .answers import (
    Accepted, Answer, AnswerParser, AnswerTooLong, FindAnswer, HashedAnswer, MakeAnswer, Nonsense, NotAnswered, Refusal,
    Unanswered, new_hash, read_finds, read_line, read_wrong_line, with_body,
)
from .ending import ENDING
from .faults import NoProgram
from .limits import MOST_PAGE, USUAL_BUDGET, Limits

SYSTEM_PATH = "/usr/bin:/bin"
# What a child has: where the user's own files are, the language and the time. Shells, interpreters and the loader read
# much else, by which a folder of strangers could have them run something.
KEPT = ("HOME", "LANG", "LANGUAGE", "LOGNAME", "TMPDIR", "TZ", "USER", "XDG_CACHE_HOME", "XDG_CONFIG_HOME",
        "XDG_DATA_HOME")
# Where the loader looks for libraries that aren't named otherwise.
LIBRARIES = ("/usr/local/lib/x86_64-linux-gnu", "/usr/local/lib", "/lib/x86_64-linux-gnu", "/usr/lib/x86_64-linux-gnu",
             "/lib64", "/usr/lib64", "/lib", "/usr/lib")
OTHERS = "isn't run, since others than you and root can write to it or to its folder"


def for_child(**more: str) -> Dict[str, str]:
    """The environment of a child: the system's PATH, and nothing that makes it run or load something else."""
    kept = {name: text for name, text in os.environ.items() if name in KEPT or name.startswith("LC_")}
    return {**kept, "PATH": SYSTEM_PATH, **more}


def on_path(name: str) -> Tuple[Optional[str], str]:
    """A program by PATH, or None and why one that is there isn't run.

    Folders that have no whole path don't count, nor does the current one, by whatever name, nor one to which others
    can write: anybody may fill these.
    """
    why = ""
    for folder in filter(os.path.isabs, os.get_exec_path()):
        path = os.path.join(folder, name)
        if not runs(path) or _is_current(folder):
            continue
        if not (is_ours(folder) and is_ours(path)):
            why = why or f"{path} {OTHERS}"
            continue
        return path, ""
    return None, why


def library(name: str) -> Optional[str]:
    """The path of a library of the system, which LD_LIBRARY_PATH doesn't change."""
    for folder in LIBRARIES:
        path = os.path.join(folder, name)
        if os.path.isfile(path) and is_ours(folder) and is_ours(path):
            return path
    return None


def runs(path: str) -> bool:
    """Whether there is a file that may be run."""
    return os.path.isfile(path) and os.access(path, os.X_OK)


def is_ours(path: str) -> bool:
    """Whether nobody but root and this user owns a file or a folder, or can write to it."""
    try:
        it = os.stat(path)
    except OSError:
        return False
    if it.st_uid not in (0, os.geteuid()) or it.st_mode & stat.S_IWOTH:
        return False
    return not it.st_mode & stat.S_IWGRP or it.st_gid == 0 or _is_alone(it.st_gid)


def _is_alone(group: int) -> bool:
    """Whether a group is the user's own, with the user's name, and has nobody else."""
    import grp  # (which few need)
    import pwd
    try:
        name, members = pwd.getpwuid(os.geteuid()).pw_name, grp.getgrgid(group)
    except KeyError:
        return False
    return group == os.getegid() and members.gr_name == name and set(members.gr_mem) <= {name}


def _is_current(folder: str) -> bool:
    try:
        return os.path.samefile(folder, os.curdir)
    except OSError:
        return False


PIECE = 1 << 16
MOST_COMPLAINT = 2048
# The number of seconds that a process may take to end, on a busy machine, once it has closed its output.
GRACE = 5.0


class ProcessFailure(NotAnswered):
    """The process gave no answer, with the reason."""


def find(command: str) -> str:
    """The path of naplps for the command that stands at this path: NAPLPS, beside it, the sources', then PATH."""
    named = os.environ.get("NAPLPS")
    if named:
        path, why = (named if runs(named) else None, "") if os.path.dirname(named) else on_path(named)
        if path is None:
            raise NoProgram(why or f"NAPLPS names no program: {named}")
        return os.path.abspath(path)
    here = os.path.dirname(command)
    top = os.path.dirname(here)
    beside = os.path.join(here, "naplps")
    if runs(beside):
        return beside
    launcher, unbuilt = os.path.join(top, "naplps"), ""
    if runs(launcher) and os.path.isdir(os.path.join(top, "crates")):
        path, unbuilt = _ask_launcher(launcher)
        if path:
            return path
    found, unsafe = on_path("naplps")
    if found is not None:
        return found
    raise NoProgram("; ".join(filter(None, (unbuilt, unsafe))) or
                    "there is no program naplps: put it beside this command or on PATH, or name it in NAPLPS")


def _ask_launcher(launcher: str) -> Tuple[str, str]:
    """The path of the program of the sources that stand there, or nothing and why there is none. Nothing is built."""
    run = subprocess.run([launcher], env=for_child(NAPLPS_WHERE="1"), stdin=subprocess.DEVNULL,
                         stdout=subprocess.PIPE, stderr=subprocess.PIPE)
    if run.returncode == 0:
        return os.fsdecode(run.stdout)[:-1], ""
    lines = [line.partition(b": ")[2].decode("utf-8", "replace") for line in run.stderr.splitlines()]
    return "", "; ".join(lines)


class ChildProcess:
    """One process. Its standard error is read too, so that it can say why it ended."""

    def __init__(self, command: Sequence[str], limits: Limits, source: Union[int, IO[bytes]] = subprocess.PIPE) -> None:
        self.limits = limits
        self.complaint = b""
        self.end_of_time = 0.0
        self.ended = False
        self.waiting = selectors.DefaultSelector()
        try:
            with ENDING.starting(self):
                self.process = subprocess.Popen(
                    command, stdin=source, stdout=subprocess.PIPE, stderr=subprocess.PIPE, bufsize=0,
                    start_new_session=True, env=for_child())
        except OSError as error:
            raise ProcessFailure(f"the program can't be started: {command[0]}: {error.strerror}") from None
        for what, most in ((resource.RLIMIT_AS, limits.memory), (resource.RLIMIT_CORE, 0)):
            try:
                _, hard = resource.prlimit(self.process.pid, what)
                least = most if hard == resource.RLIM_INFINITY else min(most, hard)
                resource.prlimit(self.process.pid, what, (least, least))
            except (OSError, ValueError, AttributeError):
                pass  # it has ended already, or the system has no such call
        for pipe in (self.process.stdin, self.process.stdout, self.process.stderr):
            if pipe:
                os.set_blocking(pipe.fileno(), False)
        for pipe in (self.process.stdout, self.process.stderr):
            assert pipe
            self.waiting.register(pipe, selectors.EVENT_READ)

    def talk(self, request: bytes, take: Callable[[bytes], bool]) -> None:
        """Writes the request, and gives what comes to `take` until that says that it has all; at the end of the output
        it is given nothing. Raises ProcessFailure, also where the output ends before `take` has all.
        """
        self.end_of_time = time.monotonic() + self.limits.seconds
        stdin, waiting = self.process.stdin, self.waiting
        left = self._write(memoryview(request)) if request else memoryview(request)
        if left and stdin:  # (most requests are written at once)
            waiting.register(stdin, selectors.EVENT_WRITE)
        try:
            while True:
                ready = waiting.select(max(0.0, self.end_of_time - time.monotonic()))
                if not ready:
                    raise ProcessFailure(f"no answer in {self.limits.seconds:g} s")
                for key, _ in ready:
                    if key.fileobj is stdin:
                        left = self._write(left)
                        if not left:
                            waiting.unregister(stdin)
                    elif key.fileobj is self.process.stderr:
                        if not self._hear():
                            waiting.unregister(key.fileobj)
                    elif self._take(take):
                        return
        finally:
            if left and stdin and not self.ended:
                waiting.unregister(stdin)

    def wind(self) -> None:
        """Lets the time for the next answer begin now."""
        self.end_of_time = time.monotonic() + self.limits.seconds

    def _write(self, left: memoryview) -> memoryview:
        assert self.process.stdin
        try:
            return left[os.write(self.process.stdin.fileno(), left[:PIECE]):]
        except BlockingIOError:
            return left
        except BrokenPipeError:
            return left[len(left):]  # it reads no more; what it has said may still come

    def _take(self, take: Callable[[bytes], bool]) -> bool:
        """Gives what came, which is nothing at the end; whether that was all."""
        assert self.process.stdout
        try:
            piece = os.read(self.process.stdout.fileno(), PIECE)
        except BlockingIOError:
            return False
        if take(piece):
            return True
        if not piece:
            raise ProcessFailure(self.how_it_ended())
        return False

    def _hear(self) -> bool:
        assert self.process.stderr
        try:
            heard = os.read(self.process.stderr.fileno(), PIECE)
        except BlockingIOError:
            return True
        self.complaint = (self.complaint + heard)[:MOST_COMPLAINT]
        return bool(heard)

    def status(self, seconds: float) -> Optional[int]:
        """The status with which it ended; None where it hasn't ended within these seconds."""
        try:
            return self.process.wait(seconds)
        except subprocess.TimeoutExpired:
            return None

    def how_it_ended(self) -> str:
        """Ends the process, if it is running, and tells its status and the first line of what it complained of."""
        status = self.status(GRACE)
        self._hear()
        self.end()
        complaint = self.complaint.split(b"\n")[0].decode("utf-8", "replace").strip()
        complaint = "".join(each if each.isprintable() else "?" for each in complaint)
        return _ending(status) + (f": {complaint}" if complaint else "")

    def end(self) -> None:
        """Ends the process and all that it started, and closes its pipes."""
        if self.ended:
            return
        try:
            os.killpg(self.process.pid, signal.SIGKILL)
        except (ProcessLookupError, PermissionError):
            pass
        self.process.wait()
        ENDING.processes.discard(self)
        self.waiting.close()
        for pipe in (self.process.stdin, self.process.stdout, self.process.stderr):
            if pipe:
                pipe.close()
        self.ended = True


def _ending(status: Optional[int]) -> str:
    if status is None:
        return "the program closed its output without an answer"
    if status < 0:
        try:
            name = signal.Signals(-status).name
        except ValueError:
            name = f"signal {-status}"
        return f"the program was ended by {name}"
    return f"the program ended with status {status}"


def version(path: str, limits: Limits) -> str:
    """What `naplps --version` prints, or 'unknown'."""
    output: List[bytes] = []

    def take(piece: bytes) -> bool:
        output.append(piece)
        return not piece or len(output) > 4
    child: Optional[ChildProcess] = None
    try:
        child = ChildProcess([path, "--version"], limits)
        child.talk(b"", take)
    except ProcessFailure:
        return "unknown"
    finally:
        if child:
            child.end()
    line = b"".join(output).split(b"\n")[0].decode("ascii", "replace").strip()
    return line if line.startswith("naplps ") and line.isprintable() else "unknown"


class Asked(Protocol):
    """A page: its bytes, or where these are too many for a request, the file that has them."""

    @property
    def data(self) -> Optional[bytes]:
        """The bytes."""

    @property
    def file(self) -> Optional[IO[bytes]]:
        """The file, which can go back."""


class RunEnd(NamedTuple):
    """How a command ended: why its output is no answer, where it is none, and what it said on standard error then."""

    failure: Optional[Unanswered] = None
    complaint: bytes = b""


class Client:
    """The program, under a budget and limits. `beat` is called after the answers to pages that are asked ahead.

    A process answers page after page. One that fails is ended, and the next page gets a new one; `started` counts them.
    """

    def __init__(self, path: str, budget: int = USUAL_BUDGET, limits: Limits = Limits(),
                 beat: Callable[[], None] = lambda: None) -> None:
        self.path, self.budget, self.limits, self.beat = path, budget, limits, beat
        self.process: Optional[ChildProcess] = None
        self.started = 0

    def ask(self, call: str, page: Union[bytes, Asked]) -> Answer:
        """The answer to check, list, canon or places on a page; one above 16 MiB has no places."""
        data = page if isinstance(page, bytes) else page.data
        if data is not None:
            return self._answers(AnswerParser(call, (data,), self.limits.answer))[0].answer
        assert not isinstance(page, bytes) and page.file
        return self.ask_file(call, page.file)

    def make(self, lines: bytes) -> MakeAnswer:
        """The page that lines make, each of which has its end; or the line that is wrong."""
        if len(lines) > MOST_PAGE:
            import tempfile  # (which takes long to be imported, and few need)
            with tempfile.TemporaryFile() as file:
                file.write(lines)
                file.flush()
                return self._make_of_file(file, lines.count(b"\n"))
        parser = AnswerParser("make", (lines,), self.limits.answer)
        answer = self._answers(parser)[0].answer
        assert not isinstance(answer, Refusal)
        wrong = parser.wrong_line
        return wrong if wrong is not None and answer == Unanswered(wrong.line) else answer

    def find(self, data: bytes, least: int) -> FindAnswer:
        """The pages among at most 16 MiB of bytes, each of which has at least this number of entries."""
        answer = self._answers(AnswerParser("find", (data,), self.limits.answer), least)[0].answer
        assert not isinstance(answer, Refusal)
        try:
            return answer if isinstance(answer, Unanswered) else read_finds(answer.body, len(data))
        except NotAnswered as nonsense:
            self.close()
            return nonsense.answer

    def ask_each(self, call: str, pages: Sequence[bytes]) -> List[Answer]:
        """The answers to a call on each of these pages, all of which are held. The requests are written ahead.

        Where the process fails, the first page without an answer has none, and the later ones are asked of a new one.
        """
        answers: List[Answer] = []
        while len(answers) < len(pages):
            some = self._answers(AnswerParser(call, pages[len(answers):], self.limits.answer, self._go_on))
            answers += [each.answer for each in some]
        return answers

    def hash_canon(self, pages: Sequence[bytes], keeps: int = 0) -> List[HashedAnswer]:
        """The answers to `canon` on each of these pages. The requests are written ahead, and canonical bytes hashed;
        those of no more than `keeps` bytes are held too.

        Where the process fails, the first page without an answer has none, and the later ones are asked of a new one.
        """
        answers: List[HashedAnswer] = []
        while len(answers) < len(pages):
            answers += self._answers(AnswerParser("canon", pages[len(answers):], None, self._go_on, keeps))
        return answers

    def _answers(self, parser: AnswerParser, least: Optional[int] = None) -> List[HashedAnswer]:
        """The answers up to the first that lacks, and why that does; `least` is in place of the budget."""
        call, number = parser.call.encode("ascii"), self.budget if least is None else least
        try:
            if self.process is None:
                self.process = ChildProcess([self.path, "batch"], self.limits)
                self.started += 1
            requests = b"".join(b"%b %d %d\n%b" % (call, number, len(page), page) for page in parser.pages)
            self.process.talk(requests, parser.take)
            return parser.answers
        except NotAnswered as failure:
            self.close()
            return [*parser.answers, HashedAnswer(failure.answer)]
        except BaseException:
            self.close()
            raise

    def _go_on(self) -> None:
        """Gives the next of the answers its own time."""
        if self.process:
            self.process.wind()
        self.beat()

    def ask_file(self, call: str, file: IO[bytes]) -> Answer:
        """The answer to a call on a page that is no request of `batch`."""
        if call == "places":
            return Unanswered("a page above 16 MiB is asked without the places of its entries")
        checked = self._checked(file)
        if call == "check" or not isinstance(checked, Accepted):
            return checked
        output = WholeOutput(self.limits.answer)
        failure = self._run([call, *self._budget], file, output.take).failure
        try:
            return failure or with_body(call, checked, output.whole)
        except NotAnswered as nonsense:
            return nonsense.answer

    def hash_canon_of_file(self, file: IO[bytes]) -> HashedAnswer:
        """The answer to `canon` on such a page, whose canonical bytes are hashed as they come."""
        checked = self._checked(file)
        if not isinstance(checked, Accepted):
            return HashedAnswer(checked)
        hashed = new_hash()
        length = 0

        def take(piece: bytes) -> bool:
            nonlocal length
            self.beat()
            hashed.update(piece)
            length += len(piece)
            return not piece
        failure = self._run(["canon", "--stream", *self._budget], file, take).failure
        return HashedAnswer(failure) if failure else HashedAnswer(checked, hashed.digest(), length)

    def _checked(self, file: IO[bytes]) -> Answer:
        """The answer to `check` on such a page; a refusal has a status of its own, and is an answer too."""
        output = WholeOutput(self.limits.answer)
        failure = self._run(["check", *self._budget], file, output.take).failure
        if not output.whole.endswith(b"\n"):
            return failure or Nonsense().answer
        try:
            return read_line(output.whole[:-1], None)
        except NotAnswered as nonsense:
            return nonsense.answer

    def _make_of_file(self, file: IO[bytes], count: int) -> MakeAnswer:
        """The same of lines that are too many for a request; the command tells of a wrong one on standard error."""
        output = WholeOutput(self.limits.answer)
        ended = self._run(["make"], file, output.take)
        if ended.failure is None:
            return Accepted(count, output.whole) if output.whole else Nonsense().answer
        return read_wrong_line(ended.complaint.rstrip(b"\n")) or ended.failure

    @property
    def _budget(self) -> List[str]:
        return ["--budget", str(self.budget)]

    def _run(self, words: Sequence[str], file: IO[bytes], take: Callable[[bytes], bool]) -> RunEnd:
        """Runs a command on a file."""
        process: Optional[ChildProcess] = None
        file.seek(0)
        try:
            process = ChildProcess([self.path, *words], self.limits, file)
            process.talk(b"", take)
            if process.status(self.limits.seconds) != 0:
                reason = process.how_it_ended()
                return RunEnd(Unanswered(reason), process.complaint)
            return RunEnd()
        except NotAnswered as failure:
            return RunEnd(failure.answer)
        finally:
            if process:
                process.end()

    def close(self) -> None:
        """Ends the process that answers."""
        if self.process:
            self.process.end()
            self.process = None


class WholeOutput:
    """Takes all that a process prints, if that isn't too long to be held."""

    def __init__(self, most: int) -> None:
        self.most, self.whole = most, b""
        self.pieces: List[bytes] = []
        self.held = 0

    def take(self, piece: bytes) -> bool:
        """Takes a piece; whether it was the end. Raises AnswerTooLong."""
        self.pieces.append(piece)
        self.held += len(piece)
        if self.held > self.most:
            raise AnswerTooLong(self.held)
        if not piece:
            self.whole = b"".join(self.pieces)
        return not piece
