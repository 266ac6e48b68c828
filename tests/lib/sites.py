"""Folders that this machine serves to a browser, under a strict policy."""
import contextlib
import functools
import http.server
import os
import threading
from typing import Iterator, Type

# What pages may do, and what those may whose names have the word `full`: run WebAssembly too.
POLICY = "default-src 'none'; script-src 'self'; connect-src 'self'"
FULL_POLICY = POLICY.replace("script-src 'self'", "script-src 'self' 'wasm-unsafe-eval'")


class Silent(http.server.SimpleHTTPRequestHandler):
    """Serves a folder, and prints nothing."""

    def log_message(self, *_: object) -> None:
        """Prints nothing."""


class Strict(Silent):
    """Serves a folder under a policy."""

    def end_headers(self) -> None:
        """Adds the policy."""
        self.send_header("Content-Security-Policy", FULL_POLICY if "full" in self.path else POLICY)
        super().end_headers()


@contextlib.contextmanager
def served(folder: "os.PathLike[str]", kind: Type[Silent] = Strict) -> Iterator[str]:
    """Serves a folder; its address, up to a slash."""
    handler = functools.partial(kind, directory=os.fspath(folder))
    with http.server.ThreadingHTTPServer(("127.0.0.1", 0), handler) as server:
        threading.Thread(target=server.serve_forever, daemon=True).start()
        yield f"http://127.0.0.1:{server.server_port}/"
        server.shutdown()
