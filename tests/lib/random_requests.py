"""Parts of requests by chance, for servers; and how long tests go on that have no end of their own."""
import os
from random import Random

# FUZZ_SECONDS=600 lets them run for so long.
SECONDS = float(os.environ.get("FUZZ_SECONDS", "4"))
HOST = "127.0.0.1"


def piece(chance: Random, key: bytes) -> bytes:
    """A part of a request."""
    return chance.choice((
        b"GET /", b"HEAD /", b"POST /", b"\r\n", b"\n", b"\r\n\r\n", b" HTTP/1.1\r\n", b" HTTP/1.0\r\n",
        b" HTTP/9\r\n", b"Host: 127.0.0.1:%d\r\n", key, b"files?from=0&count=9", b"drawing?key=1", b"thumbnail?key=",
        b"..", b"%2e%2e/", b"Content-Length: 5\r\n", b"Transfer-Encoding: chunked\r\n", b"X: " + b"a" * 4000, b"\0",
        b"Connection: keep-alive\r\n", bytes(chance.randrange(256) for _ in range(9)), b": \r\n", b" x\r\n",
        b"Expect: 100-continue\r\n"))
