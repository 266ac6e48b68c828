"""Serves a report to browsers of this machine, and to nobody else."""
import errno
import hmac
import io
import json
import os
import re
import resource
import secrets
import socket
import socketserver
import sqlite3
import threading
import time
from concurrent.futures import ThreadPoolExecutor
from concurrent.futures import TimeoutError as TookTooLong
from dataclasses import dataclass
from http.server import BaseHTTPRequestHandler, ThreadingHTTPServer
from typing import Callable, Dict, Mapping, Optional, Tuple
from urllib.parse import parse_qsl

from .. import messages
from ..packs import MOST_NAME
from .drawing import Drawing, DrawingTask
from .questions import Questions, Unasked, Words
from .sketch_workers import Desk, DrawingOptions

# There are fewer where the system gives the process few descriptors, of which the server needs some for itself.
MOST_CONNECTIONS, LEAST_CONNECTIONS, RESERVED = 64, 4, 48
# The number of bytes of a request's head, and of seconds in which all of it has to come.
MOST_HEAD, HEAD_SECONDS = 16 << 10, 10.0
PIECE = 4096
_END = re.compile(rb"\n\r?\n")


class HeadTooLong(Exception):
    """A head has more bytes than it may have."""


@dataclass
class _State:
    """Since when a connection waits for a request, or None where one is being answered; whether it had the key."""

    since: Optional[float]
    is_known: bool = False


class Connections:
    """The open connections. Several threads use it."""

    def __init__(self) -> None:
        self._lock = threading.Lock()
        self._open: Dict[socket.socket, _State] = {}

    def admit(self, connection: socket.socket) -> bool:
        """Whether a new connection has a place. Where all are taken, the one that waits longest is closed for it, of
        those that had no key first."""
        descriptors = resource.getrlimit(resource.RLIMIT_NOFILE)[0]
        most = MOST_CONNECTIONS
        if descriptors != resource.RLIM_INFINITY:
            most = min(most, max(LEAST_CONNECTIONS, descriptors - RESERVED))
        with self._lock:
            while len(self._open) >= most:
                if not self._close_one():
                    return False
            self._open[connection] = _State(time.monotonic())
            return True

    def make_room(self) -> None:
        """Closes the connection that waits longest, if one does."""
        with self._lock:
            self._close_one()

    def _close_one(self) -> bool:
        waiting = [(state.is_known, state.since, connection.fileno(), connection)
                   for connection, state in self._open.items() if state.since is not None]
        if not waiting:
            return False
        connection = min(waiting)[-1]
        del self._open[connection]
        try:
            connection.shutdown(socket.SHUT_RDWR)  # (its own thread closes it then)
        except OSError:
            pass
        return True

    def wait(self, connection: socket.socket) -> None:
        """A connection waits for a request from now on."""
        self._set(connection, time.monotonic())

    def work(self, connection: socket.socket) -> None:
        """A connection has a request, which is answered."""
        self._set(connection, None)

    def _set(self, connection: socket.socket, since: Optional[float]) -> None:
        with self._lock:
            state = self._open.get(connection)
            if state:
                state.since = since

    def know(self, connection: socket.socket) -> None:
        """A connection had the key."""
        with self._lock:
            state = self._open.get(connection)
            if state:
                state.is_known = True

    def forget(self, connection: socket.socket) -> None:
        """A connection has ended."""
        with self._lock:
            self._open.pop(connection, None)


class Heads:
    """Reads the heads of requests from a connection, before anything of them is parsed."""

    def __init__(self, connection: socket.socket) -> None:
        self._connection, self._come = connection, b""

    def read(self, silence: float) -> Optional[bytes]:
        """The next head with the empty line at its end, whose first byte may be waited for so long; None where none
        comes in time. Raises HeadTooLong, OSError."""
        end, looked = time.monotonic() + silence, 0
        while True:
            self._come = self._come.lstrip(b"\r\n") if not looked else self._come
            found = _END.search(self._come, max(0, looked - 2))
            if found and found.end() <= MOST_HEAD:
                head, self._come = self._come[:found.end()], self._come[found.end():]
                return head
            if len(self._come) > MOST_HEAD:
                raise HeadTooLong
            if self._come and not looked:
                end = time.monotonic() + HEAD_SECONDS
            looked = len(self._come)
            left = end - time.monotonic()
            if left <= 0:
                return None
            self._connection.settimeout(left)
            try:
                piece = self._connection.recv(PIECE)
            except socket.timeout:
                return None
            if not piece:
                return None
            self._come += piece


HERE = "127.0.0.1"
MOST_WORDS, MOST_WORD = 12, 2000
# Of a file the key has its name in hexadecimal.
MOST_KEY = 20 + 2 * MOST_NAME
# How long a client may be silent between two requests, how long an answer may take to be sent, and how long is waited
# for the store at the end, in seconds.
SILENCE, GRACE = 30, 5
# The system has no descriptor or no memory for another connection; so long nobody is taken then, in seconds.
WANTING, PAUSE = (errno.EMFILE, errno.ENFILE, errno.ENOBUFS, errno.ENOMEM), 0.1
DRAWING, THUMBNAIL, PLAYED = "drawing", "thumbnail", "played"
# Random bytes of the key in the address.
KEY_BYTES = 24
# The greatest number of pages that are drawn at the same time.
MOST_DRAWERS = max(2, min(4, os.cpu_count() or 1))
HEADERS = {
    "X-Content-Type-Options": "nosniff", "X-Frame-Options": "DENY", "Referrer-Policy": "no-referrer",
    "Cross-Origin-Resource-Policy": "same-origin", "Cross-Origin-Opener-Policy": "same-origin",
    "Cache-Control": "no-store"}
NOTHING = "default-src 'none'; frame-ancestors 'none'"


class NotServed(Exception):
    """The port can't be had, with the system's reason."""


class BadRequest(Exception):
    """A request that isn't answered, with its status and the reason."""

    def __init__(self, status: int, reason: str) -> None:
        super().__init__(reason)
        self.status = status


class Server(ThreadingHTTPServer):
    """A server of one report. One thread asks the store, and processes draw; other threads wait for their clients."""

    daemon_threads = True
    block_on_close = False
    request_queue_size = 128

    def __init__(self, port: int, one: ThreadPoolExecutor, questions: Questions, desk: Desk) -> None:
        self.one, self.questions, self.desk, self.connections = one, questions, desk, Connections()
        # (whoever has no key learns nothing, and a browser doesn't send the address on)
        self.top = f"/{secrets.token_urlsafe(KEY_BYTES)}/"
        super().__init__((HERE, port), Handler)

    def server_bind(self) -> None:
        """Takes the port, without asking anybody for the name of this machine."""
        socketserver.TCPServer.server_bind(self)
        self.server_name, self.server_port = HERE, int(self.server_address[1])

    def get_request(self) -> Tuple[socket.socket, Tuple[str, int]]:
        """Takes a connection. Where the system has no place for one, another is closed, and none is taken a moment."""
        try:
            accepted: Tuple[socket.socket, Tuple[str, int]] = self.socket.accept()
            return accepted
        except OSError as error:
            if error.errno in WANTING:
                self.connections.make_room()
                time.sleep(PAUSE)
            raise

    def verify_request(self, request: object, client_address: object) -> bool:
        """Whether there is a place for it."""
        assert isinstance(request, socket.socket)
        return self.connections.admit(request)

    def shutdown_request(self, request: object) -> None:
        """Closes a connection."""
        assert isinstance(request, socket.socket)
        self.connections.forget(request)
        super().shutdown_request(request)

    def handle_error(self, request: object, client_address: object) -> None:
        """A client that went away is nothing to tell."""


class Handler(BaseHTTPRequestHandler):
    """One request."""

    server: Server
    timeout = SILENCE
    protocol_version = "HTTP/1.1"  # (a browser asks for many pictures one after another)

    def setup(self) -> None:
        """Heads are read here, and not by http.server, which takes some megabytes and any time for one."""
        super().setup()
        self.rfile.close()
        self.heads, self.silence = Heads(self.connection), HEAD_SECONDS

    def handle_one_request(self) -> None:
        """Reads the head of a request, and then answers."""
        self.server.connections.wait(self.connection)
        try:
            head = self.heads.read(self.silence)
        except HeadTooLong:
            self.requestline = self.request_version = self.command = ""
            self.send_error(431)
            return
        if head is None:
            self.close_connection = True
            return
        self.server.connections.work(self.connection)
        self.connection.settimeout(SILENCE)
        self.rfile, self.silence = io.BytesIO(head), SILENCE
        super().handle_one_request()

    def do_GET(self) -> None:
        """Answers."""
        self._answer(True)

    def do_HEAD(self) -> None:
        """Answers without the body."""
        self._answer(False)

    def _answer(self, whole: bool) -> None:
        # (a body isn't read, so what follows it would be taken for a request)
        self.close_connection |= any(name in self.headers for name in ("Content-Length", "Transfer-Encoding"))
        try:
            self._check()
            kind, policy, body = self._asked()
        except BadRequest as refused:
            self.close_connection = True
            self._send(refused.status, "text/plain", NOTHING, str(refused).encode("utf-8"), whole)
        except (Unasked, sqlite3.Error) as error:
            status = 404 if isinstance(error, Unasked) else 500
            self._send(status, "text/plain", NOTHING, str(error).encode("utf-8"), whole)
        else:
            self._send(200, kind, policy, body, whole)

    def _check(self) -> None:
        """Refuses what comes by another name of this machine, or from a page of another place."""
        names = self.headers.get_all("Host") or []
        if names not in ([f"{each}:{self.server.server_port}"] for each in (HERE, "localhost")):
            raise BadRequest(403, messages.OTHER_HOST.format(host=HERE, port=self.server.server_port))
        if not hmac.compare_digest(self.path[:len(self.server.top)].encode("utf-8"), self.server.top.encode("ascii")):
            raise BadRequest(403, messages.NO_KEY)
        self.server.connections.know(self.connection)
        if self._name() and self.headers.get("Sec-Fetch-Site", "same-origin") not in ("same-origin", "none"):
            raise BadRequest(403, messages.OTHER_SITE)

    def _name(self) -> str:
        """What is asked for, after the key."""
        return self.path[len(self.server.top):]

    def _asked(self) -> Tuple[str, str, bytes]:
        """Kind, policy and body of the answer."""
        one, questions = self.server.one, self.server.questions
        if not self._name():
            page, policy = one.submit(questions.page).result()
            return "text/html", policy + "; frame-ancestors 'none'", page.encode("utf-8")
        name, _, query = self._name().partition("?")
        if name in (DRAWING, THUMBNAIL):
            it = one.submit(questions.drawing_task, words(query)).result()
            is_small = name == THUMBNAIL
            drawing = (self.server.desk.drawing(it._replace(is_small=is_small)) if it else
                       Drawing(why=messages.NOTHING_TO_DRAW))
            answer: Mapping[str, object] = drawing.small() if is_small else drawing._asdict()
        elif name == PLAYED:
            return "application/json", NOTHING, self._played(one.submit(questions.drawing_task, words(query)).result())
        elif name in questions.ways:
            answer = one.submit(questions.ask, name, words(query)).result()
        else:
            raise BadRequest(404, messages.NO_SUCH_NAME)
        return "application/json", NOTHING, json.dumps(answer).encode("ascii")

    def _played(self, it: Optional[DrawingTask]) -> bytes:
        """What a player has of a page, or why it has nothing."""
        drawing = (self.server.desk.drawing(it._replace(is_played=True)) if it else
                   Drawing(why=messages.NOTHING_TO_DRAW))
        why = "" if drawing.played else drawing.why or messages.LONG_TO_BE_PLAYED
        return ('{"why":%s,"page":%s}' % (json.dumps(why), drawing.played or "null")).encode("ascii")

    def _send(self, status: int, kind: str, policy: str, body: bytes, whole: bool, allow: str = "") -> None:
        self.send_response(status)
        more = {"Content-Type": kind + "; charset=utf-8", "Content-Length": str(len(body)),
                "Content-Security-Policy": policy, **HEADERS, **({"Allow": allow} if allow else {}),
                **({"Connection": "close"} if self.close_connection else {})}
        for name, value in more.items():
            self.send_header(name, value)
        self.end_headers()
        if whole:
            self.wfile.write(body)

    def send_error(self, code: int, message: Optional[str] = None, explain: Optional[str] = None) -> None:
        """A request that can't be read; or one of another method, which isn't allowed."""
        status = 405 if code == 501 else code
        self.close_connection = True
        self._send(status, "text/plain", NOTHING, b"it isn't understood", getattr(self, "command", "") != "HEAD",
                   "GET, HEAD" if status == 405 else "")

    def version_string(self) -> str:
        """The name of the server, without versions."""
        return "naplps-pages"

    def log_message(self, format: str, *args: object) -> None:  # pylint: disable=redefined-builtin
        """Requests aren't reported."""


def words(query: str) -> Words:
    """The words of a query, each of them once. Raises BadRequest."""
    try:
        pairs = parse_qsl(query, keep_blank_values=True, max_num_fields=MOST_WORDS)
    except ValueError:
        raise BadRequest(400, messages.MANY_WORDS_ASKED) from None
    made: Dict[str, str] = dict(pairs)
    if len(made) != len(pairs) or any(
            len(value) > (MOST_KEY if name == "key" else MOST_WORD) for name, value in made.items()):
        raise BadRequest(400, messages.WORD_TWICE)
    return made


def serve(store: str, options: DrawingOptions, port: int, began: Callable[[str], None]) -> None:
    """Serves until a signal ends it; `began` gets the address. Raises StoreFailed, sqlite3.Error or NotServed."""
    one = ThreadPoolExecutor(max_workers=1)
    questions, desk = one.submit(Questions, store).result(), Desk(options, MOST_DRAWERS)
    try:
        server = Server(port, one, questions, desk)
    except OSError as error:
        raise NotServed(f"{HERE}:{port}: {os.strerror(error.errno or 0)}") from None
    try:
        one.submit(questions.page).result()  # (the first who opens it needn't wait for what is the same for all)
        desk.begin()
        began(f"http://{HERE}:{server.server_port}{server.top}")
        server.serve_forever()
    finally:
        server.server_close()
        desk.close()
        try:
            one.submit(questions.close).result(GRACE)
        except TookTooLong:
            pass  # (it only reads)
        one.shutdown(wait=False)
