"""What a served report answers, and that it answers nothing else and nobody else."""
import errno
import hashlib
import http.client
import json
import os
import re
import resource
import signal
import socket
import subprocess
import time
from concurrent.futures import ThreadPoolExecutor
from contextlib import contextmanager
from pathlib import Path

import pytest

from command import COMMAND
from fake_programs import BATCH
from naplps_pages.report.server import HEAD_SECONDS, MOST_DRAWERS
from naplps_pages.report.sketch_workers import ENDED
from samples import OUTSIDE, POINT, SPELLED
from scans import children, every_table, start, tree, wait_until

HOST = "127.0.0.1"
FILES = "/files?text=&answer=&from=0&count=100"
CLOSED = (errno.ENOTCONN, errno.ECONNRESET, errno.EPIPE)


@contextmanager
def unless_closed():
    """What is inside ends as soon as the other side has closed the connection."""
    try:
        yield
    except OSError as error:
        assert error.errno in CLOSED, error


class Served:
    """A server, and requests to it."""

    def __init__(self, process):
        self.process = process
        self.address = process.stdout.readline().decode()[:-1]
        found = re.fullmatch(r"http://127\.0\.0\.1:([0-9]+)(/[A-Za-z0-9_-]{32})/", self.address)
        self.port, self.key = int(found[1]), found[2]

    def ask(self, path, method="GET", **headers):
        """The status, the headers and the body of an answer to what stands after the key."""
        connection = http.client.HTTPConnection(HOST, self.port, timeout=300)
        try:
            connection.putrequest(method, self.key + path, skip_host=True, skip_accept_encoding=True)
            for name, value in {"Host": "127.0.0.1:%d" % self.port, **headers}.items():
                for each in value if isinstance(value, list) else [value]:
                    connection.putheader(name.replace("_", "-"), each)
            connection.endheaders()
            answer = connection.getresponse()
            return answer.status, answer.headers, answer.read()
        finally:
            connection.close()

    def json(self, path):
        """What an answer says."""
        status, _, body = self.ask(path)
        assert status == 200, body
        return json.loads(body)

    def drawing(self, name):
        """The drawing of a file."""
        return self.json("/drawing?key=" + key(self, name))

    def raw(self, data):
        """What comes back for these bytes, of which the server needn't read all."""
        come = []
        with socket.create_connection((HOST, self.port), 300) as it:
            with unless_closed():
                it.sendall(data)
                it.shutdown(socket.SHUT_WR)
            with unless_closed():
                come.extend(iter(lambda: it.recv(65536), b""))
        return b"".join(come)


def archive(run, folder):
    """A collection of four files, and a fifth that is gone; its store."""
    top = tree(os.path.join(folder, "archive"), {
        "a.nap": POINT, "sub/b.nap": SPELLED, "sub/c.nap": POINT, "d.nap": OUTSIDE, "gone.nap": POINT + b"\x0a"})
    store = os.path.join(folder, "pages.db")
    run(["scan", top, "-o", store])
    os.unlink(os.path.join(top, "gone.nap"))
    run(["scan", top, "-o", store])
    return store


@pytest.fixture(scope="module")
def served(naplps, tmp_path_factory):
    """A server that many tests ask."""
    def run(words):
        subprocess.run([COMMAND, *words], check=True, env=dict(os.environ, NAPLPS=naplps), capture_output=True)
    with start(["report", archive(run, str(tmp_path_factory.mktemp("served"))), "--serve"], naplps) as process:
        yield Served(process)
        process.terminate()


@pytest.fixture
def own(run, naplps, tmp_path):
    """A server of a collection that the test may change."""
    with start(["report", archive(run, str(tmp_path)), "--serve"], naplps) as process:
        yield Served(process)
        process.terminate()


def key(served, name):
    """The key of a file."""
    return next(each["key"] for each in served.json(FILES)["files"] if each["name"] == name)


def test_the_page(served):
    status, headers, body = served.ask("/")
    assert (status, headers["Content-Type"], body[:15]) == (200, "text/html; charset=utf-8", b"<!doctype html>")
    policy = headers["Content-Security-Policy"]
    assert policy.startswith("default-src 'none'; script-src 'sha256-") and "connect-src 'self'" in policy
    assert "unsafe" not in policy and "frame-ancestors 'none'" in policy
    assert headers["X-Content-Type-Options"] == "nosniff" and headers["Cache-Control"] == "no-store"
    assert headers["Cross-Origin-Resource-Policy"] == "same-origin"
    assert headers.get("Access-Control-Allow-Origin") is None and headers["Server"] == "naplps-pages"


def test_files_groups_and_details(served):
    found = served.json(FILES)
    assert found["total"] == 4
    assert [(each["name"], each["answer"], each["entries"], each["group"]) for each in found["files"]] == [
        ("a.nap", "accepted", 1, 1), ("d.nap", "10 Outside", 3, 0), ("sub/b.nap", "accepted", 1, 1),
        ("sub/c.nap", "accepted", 1, 1)]
    part = served.json("/files?text=SUB%2F&answer=accepted&from=1&count=5")
    assert part["total"] == 2 and [each["name"] for each in part["files"]] == ["sub/c.nap"]
    assert served.json("/files?text=group+1&answer=&from=0&count=5")["total"] == 3
    assert served.json("/files?text=group+2&answer=&from=0&count=5")["total"] == 0
    (group,) = served.json("/groups?copies=0&from=0&count=5&names=8")["groups"]
    assert (group["files"], group["spellings"]) == (3, 2)
    assert sorted(len(each["files"]) for each in group["members"]) == [1, 2]
    told = served.json("/details?key=" + key(served, "d.nap"))
    assert told["refusal"]["means"].startswith("A point of the picture code") and told["equal"] is None
    assert served.json("/details?key=" + key(served, "a.nap"))["equal"]["files"] == 3
    drawing = served.drawing("a.nap")
    assert drawing["sketch"].startswith("<svg")
    assert drawing["lines"] == ["POINT 4194304,4194304 pel=0,0 colour=own-start"]
    assert served.json("/thumbnail?key=" + key(served, "a.nap")) == {
        "sketch": drawing["sketch"], "text": "", "why": "", "entries": 1}


def test_a_page_is_found_by_its_hash(served):
    own = hashlib.sha256(SPELLED).hexdigest()
    for digits in (16, 40, 64):
        found = served.json("/find?order=&pages=1&hash=" + own[:digits].upper())
        assert found == {"key": key(served, "sub/b.nap"), "position": 2}
    assert served.json("/find?answer=10+Outside&hash=" + own) == {"key": key(served, "sub/b.nap"), "position": -1}
    first = served.json("/find?hash=" + hashlib.sha256(POINT).hexdigest())
    assert first == {"key": key(served, "a.nap"), "position": 0}


def test_files_by_folder_and_by_group(served):
    names = [each["name"] for each in served.json("/files?folder=sub&from=0&count=9")["files"]]
    assert names == ["sub/b.nap", "sub/c.nap"]
    assert served.json("/files?folder=su&from=0&count=9")["total"] == 0
    some = served.json("/files?order=group&from=0&count=9")["files"]
    assert [each["group"] for each in some] == [1, 1, 1, 0] and some[3]["name"] == "d.nap"
    of = {"a.nap": POINT, "sub/c.nap": POINT, "sub/b.nap": SPELLED}
    hashes = [hashlib.sha256(of[each["name"]]).hexdigest() for each in some[:3]]
    assert hashes == sorted(hashes) == [each["hash"] for each in some[:3]]


def test_the_head_of_an_answer(served):
    for path in ("/", FILES):
        status, headers, body = served.ask(path, "HEAD")
        assert (status, body) == (200, b"") and int(headers["Content-Length"]) == len(served.ask(path)[2])


@pytest.mark.parametrize("path", [
    "/etc/passwd", "/../../etc/passwd", "/..%2f..%2fetc/passwd", "//etc/passwd", "/.", "/%00", "/files/",
    "/files/x?a=b", "/report.js", "/report.html", "/pages.db", "/favicon.ico", "/index.html", "/?", "/?a", "/FILES",
    "/http://127.0.0.1/", "/file:///etc/passwd", "/*", "/files#x", "/[", "//[/files"])
def test_there_is_nothing_else(served, path):
    status, _, body = served.ask(path)
    assert (status, body) == (404, b"there is nothing of that name") or status == 400


@pytest.mark.parametrize("path", [
    "/", FILES, "/?key=", "http://127.0.0.1/", "http://other.example/", "file:///etc/passwd", "*", "/favicon.ico",
    "//", "/%s", "/%s/", "/%s" + FILES, "/" + "A" * 32 + "/", "/" + "A" * 70 + FILES, "/\xe9/"])
def test_nothing_is_told_without_the_key(served, path):
    if "%s" in path:  # a key that is nearly right
        path = path.replace("%s", served.key[1:-1] + ("A" if served.key[-1] != "A" else "B"))
    for method in ("GET", "HEAD"):
        raw = ("%s %s HTTP/1.1\r\nHost: 127.0.0.1:%d\r\n\r\n" % (method, path, served.port)).encode("latin-1")
        said = served.raw(raw)
        assert said.split(b" ")[1] in (b"403", b"400") and b"<html" not in said and b"total" not in said
        assert served.key[1:].encode() not in said


def test_the_key_is_new_each_time_and_nowhere_else(own, served):
    assert own.key != served.key
    for path in ("/", FILES, "/drawing?key=" + key(own, "a.nap"), "/nothing"):
        status, headers, body = own.ask(path)
        assert headers["Referrer-Policy"] == "no-referrer" and headers["Cache-Control"] == "no-store"
        assert own.key[1:] not in str(headers) and own.key[1:].encode() not in body
    assert own.key[1:].encode() not in Path("/proc/%d/cmdline" % own.process.pid).read_bytes()
    own.process.send_signal(signal.SIGTERM)
    assert own.process.communicate(timeout=300) == (b"", b"")


@pytest.mark.parametrize("path", [
    "/drawing", "/drawing?key=", "/drawing?key=1", "/drawing?key=1-2e2e", "/drawing?key=1-2e2e2f612e6e6170",
    "/drawing?key=999-612e6e6170", "/drawing?key=-1-612e6e6170", "/drawing?key=1-", "/drawing?key=/etc/passwd",
    "/thumbnail", "/thumbnail?key=1-2e2e", "/find", "/find?hash=", "/find?hash=0123", "/find?hash=" + "0" * 64,
    "/find?hash=" + "0" * 65, "/find?hash=0123456789abcde'", "/details?key=1-ff", "/details?key=1%20OR%201",
    "/files?from=-1&count=1", "/files?from=0",
    "/files?from=0&count=100000", "/files?from=0&count=1e3", "/groups?copies=0&from=0&count=5",
    "/files?from=%D9%A1&count=1"])
def test_what_is_not_in_the_store_is_not_there(served, path):
    assert served.ask(path)[0] == 404


def test_a_file_that_is_gone_is_not_there(served):
    (folder,) = {each["key"].split("-")[0] for each in served.json(FILES)["files"] if "/" not in each["name"]}
    assert served.ask("/details?key=%s-%s" % (folder, b"gone.nap".hex()))[0] == 404


@pytest.mark.parametrize("path", ["/files?from=0&from=1&count=1", "/files?from=0&count=1&text=" + "a" * 2001,
                                  "/files?" + "&".join("a%d=1" % at for at in range(13))])
def test_words_that_are_too_many(served, path):
    assert served.ask(path)[0] == 400


@pytest.mark.parametrize("method", ["POST", "PUT", "DELETE", "OPTIONS", "TRACE", "PATCH", "CONNECT", "get", "X"])
def test_other_methods_are_refused(served, method):
    status, headers, _ = served.ask("/", method)
    assert status == 405 and headers["Allow"] == "GET, HEAD"


@pytest.mark.parametrize("host", [
    "other.example", "other.example:%d", "127.0.0.1", "localhost", "127.0.0.1:%d.example", "[::1]:%d", "127.1:%d", "",
    "127.0.0.1:1", ["127.0.0.1:%d", "other.example"], []])
def test_other_hosts_are_refused(served, host):
    some = [each.replace("%d", str(served.port)) for each in ([host] if isinstance(host, str) else host)]
    for path in ("/", FILES):
        assert served.ask(path, Host=some)[0] == 403
    assert served.ask("/", Host="localhost:%d" % served.port)[0] == 200


def test_other_sites_are_refused(served):
    for site in ("cross-site", "same-site"):
        assert served.ask(FILES, Sec_Fetch_Site=site)[0] == 403
    assert served.ask(FILES, Sec_Fetch_Site="same-origin")[0] == 200


@pytest.mark.parametrize("data", [
    b"", b"\0\0\0\0\r\n\r\n", b"GET\r\n\r\n", b"GET / HTTP/9.9\r\n\r\n", b"GET " + b"a" * 70000, b"GET /\r\n\r\n",
    b"GET / HTTP/1.1\r\n" + b"a: b\r\n" * 200 + b"\r\n"])
def test_what_is_no_request(served, data):
    assert b"<!doctype" not in served.raw(data)
    assert served.ask("/")[0] == 200


def test_this_machine_alone(served):
    for other in ("127.0.0.2", "::1"):
        with pytest.raises(OSError):
            socket.create_connection((other, served.port), 5)


def test_a_link_in_place_of_a_page_is_not_followed(own, tmp_path):
    at = key(own, "a.nap")
    page = tmp_path / "archive" / "a.nap"
    page.unlink()
    page.symlink_to("/etc/passwd")
    drawing = own.json("/drawing?key=" + at)
    assert (drawing["sketch"], drawing["text"], drawing["lines"], drawing["why"]) == ("", "", [], "a symbolic link")
    page.unlink()
    page.write_bytes(b"OTHER")
    assert own.json("/drawing?key=" + at)["why"] == "it isn't as it was when it was scanned"


def test_a_scan_meanwhile_is_shown(own, run, tmp_path):
    assert own.json(FILES)["total"] == 4
    top = tree(tmp_path / "archive", {"new/e.nap": POINT + b"\x07\x07"})
    run(["scan", top, "-o", str(tmp_path / "pages.db")])
    assert [each["name"] for each in own.json("/files?text=new&answer=&from=0&count=9")["files"]] == ["new/e.nap"]
    assert b"<dd>5</dd>" in own.ask("/")[2]


@pytest.mark.parametrize("number", [signal.SIGINT, signal.SIGTERM])
def test_a_signal_ends_it_and_the_program(own, number):
    own.drawing("a.nap")
    drawers = children(own.process.pid)
    (program,) = [each for drawer in drawers for each in children(drawer)]
    own.process.send_signal(number)
    assert own.process.wait(300) == -number
    wait_until(lambda: all(map(_is_dead, [*drawers, program])))
    assert own.process.stderr.read() == b""


def _is_dead(pid):
    try:
        return Path("/proc/%d/stat" % pid).read_text("utf-8").rsplit(")", 1)[1].split()[0] == "Z"
    except OSError:
        return True


def test_a_port_that_is_taken_is_told(served, run, tmp_path):
    said = run(["report", archive(run, str(tmp_path)), "--serve", "--port", str(served.port)])
    assert (said.returncode, said.stderr.decode()) == (
        3, "naplps-pages: 127.0.0.1:%d: Address already in use\n" % served.port)


def test_nothing_is_written(own, tmp_path):
    before, names = every_table(tmp_path / "pages.db"), sorted(os.listdir(tmp_path))
    for path in ("/", FILES, "/groups?copies=1&from=0&count=5&names=8"):
        own.ask(path)
    assert (every_table(tmp_path / "pages.db"), sorted(os.listdir(tmp_path))) == (before, names)


# A program that thinks of some pages until a file is there.
SLOW = BATCH + """
if sys.argv[1:] == ['--version']:
    print('naplps 9.9, canonical form 2')
    sys.exit()
for command, budget, page in requests():
    while command != 'canon' and page[3:] == b'hang' and not os.path.exists('@GO@'): time.sleep(0.02)
    bodies = {'places': b'0 BELL\\n' * len(page), 'list': b'BELL\\n' * len(page), 'canon': b'canonical ' + page,
              'check': b''}
    answer(b'accepted %d entries' % len(page), bodies[command])
"""


@pytest.fixture
def go(tmp_path):
    """The file that the slow program waits for."""
    return tmp_path / "go"


@pytest.fixture
def slow(run, fake, tmp_path, go, request):
    """A server whose program thinks of six of nine pages until the file is there. Each may take as long as it takes,
    or so many seconds as the test says."""
    top = tree(os.path.join(str(tmp_path), "slow"), {
        "%d.nap" % at: b"%d.." % at + (b"hang" if at < 6 else b"good") for at in range(9)})
    store, program = os.path.join(str(tmp_path), "slow.db"), fake(SLOW.replace("@GO@", str(go)))
    assert run(["scan", top, "-o", store], program=program).returncode == 0
    with start(["report", store, "--serve", "--timeout", getattr(request, "param", "900")], program) as process:
        yield Served(process)
        process.terminate()


def programs(served):
    """The programs that its processes have started."""
    return [each for drawer in children(served.process.pid) for each in children(drawer)]


def test_a_long_drawing_makes_nobody_wait(slow, go):
    with ThreadPoolExecutor(1) as other:
        long = other.submit(slow.drawing, "0.nap")
        wait_until(lambda: programs(slow))
        assert slow.drawing("7.nap")["entries"] == 7 and not long.done()
        assert slow.json(FILES)["total"] == 9 and not long.done()
        go.touch()
        assert long.result()["entries"] == 7


def test_questions_are_answered_while_all_processes_draw(slow, go):
    with ThreadPoolExecutor(7) as others:
        long = [others.submit(slow.drawing, "%d.nap" % at) for at in range(6)]
        good = others.submit(slow.drawing, "8.nap")
        assert slow.json(FILES)["total"] == 9 and not any(each.done() for each in long)
        go.touch()
        assert [each.result()["entries"] for each in (*long, good)] == [7] * 7


@pytest.mark.parametrize("slow", ["8"], indirect=True)
def test_many_long_drawings_end(slow):
    with ThreadPoolExecutor(7) as others:
        long = [others.submit(slow.drawing, "%d.nap" % at) for at in range(6)]
        good = others.submit(slow.drawing, "8.nap")
        assert all(re.search("(no answer|isn't drawn) in 8 s$", each.result()["why"]) for each in long)
        assert good.result()["entries"] == 7
    assert slow.drawing("6.nap")["entries"] == 7


def test_drawers_are_there_before_pages_are_asked_for_and_one_that_is_killed_is_replaced(own):
    wait_until(lambda: len(children(own.process.pid)) == MOST_DRAWERS)
    assert own.drawing("a.nap")["sketch"]
    drawers = children(own.process.pid)
    for drawer in drawers:
        os.kill(drawer, signal.SIGKILL)
    said = [own.drawing("a.nap")["why"] for _ in range(len(drawers) + 1)]
    assert said == [ENDED] * len(drawers) + [""] and own.drawing("a.nap")["sketch"]


def test_a_connection_is_kept_for_more(served):
    connection = http.client.HTTPConnection(HOST, served.port, timeout=300)
    connection.connect()
    kept = connection.sock
    for _ in range(3):
        connection.request("GET", served.key + FILES)
        assert json.loads(connection.getresponse().read())["total"] == 4 and connection.sock is kept
    connection.close()


@pytest.mark.parametrize("key, headers", [("/nothing", ""), ("", "Content-Length: 3\r\n"),
                                          ("", "Transfer-Encoding: chunked\r\n")])
def test_nothing_more_is_read_behind_a_request_that_is_refused_or_has_a_body(served, key, headers):
    request = "GET %s%s HTTP/1.1\r\nHost: 127.0.0.1:%d\r\n" % (key or served.key, FILES, served.port)
    said = served.raw((request + headers + "\r\n" + request + "\r\n").encode())
    assert said.count(b"HTTP/1.1 ") == 1 and b"\r\nConnection: close\r\n" in said


@pytest.mark.parametrize("number", [signal.SIGTERM, signal.SIGINT])
def test_it_ends_amid_a_drawing(slow, number):
    with ThreadPoolExecutor(1) as other:
        long = other.submit(slow.drawing, "0.nap")
        wait_until(lambda: programs(slow))
        ((drawer, program),) = [(drawer, each) for drawer in children(slow.process.pid) for each in children(drawer)]
        slow.process.send_signal(number)
        assert slow.process.wait(300) == -number
        wait_until(lambda: _is_dead(drawer) and _is_dead(program))
        # (the server may end before it can tell that nothing is drawn, or after that)
        lost = long.exception()
        assert isinstance(lost, (OSError, http.client.HTTPException, AssertionError)) or long.result()["why"] == ENDED


def _memory(process):
    """The memory of a process, in MiB."""
    return int(re.search(r"VmRSS:\s+(\d+)", Path(f"/proc/{process.pid}/status").read_text("ascii"))[1]) >> 10


def _processor(process):
    """The seconds of a processor that a process took."""
    words = Path(f"/proc/{process.pid}/stat").read_text("ascii").rpartition(")")[2].split()
    return (int(words[11]) + int(words[12])) / os.sysconf("SC_CLK_TCK")


def _connected(port, number):
    return [socket.create_connection((HOST, port), 60) for _ in range(number)]


def test_long_heads_take_no_memory(own):
    """97 headers of 65,000 bytes each, without a key, took 45 MB a connection, and kept them."""
    before, more = _memory(own.process), b"".join(b"X%d: " % number + b"a" * 65000 + b"\r\n" for number in range(97))
    for _ in range(2):
        clients = _connected(own.port, 20)
        for each in clients:
            with unless_closed():  # (it is, as soon as it has sent 16 KiB)
                each.sendall(b"GET /nokey/ HTTP/1.1\r\nHost: x\r\n" + more + b"\r\n")
        assert own.ask("/")[0] == 200
        assert _memory(own.process) < before + 40
        for each in clients:
            each.close()


@pytest.mark.parametrize("most", [None, 64])
def test_slow_clients_lock_nobody_out(own, most):
    """Also where the server has few descriptors: the user with the key is answered while 200 others say nothing, and
    while they send on."""
    if most is not None:
        resource.prlimit(own.process.pid, resource.RLIMIT_NOFILE, (most, most))
    clients = _connected(own.port, 200)
    before = _processor(own.process)
    assert own.ask("/")[0] == 200
    for _ in range(5):
        for each in clients:
            with unless_closed():
                each.send(b"a")
        assert own.ask("/")[0] == own.ask(FILES)[0] == 200
        time.sleep(1)
    assert _processor(own.process) - before < 4
    for each in clients:
        each.close()


def test_a_kept_connection_that_had_the_key_outlives_others(own):
    kept = http.client.HTTPConnection(HOST, own.port, timeout=60)
    kept.request("GET", own.key + "/")
    assert kept.getresponse().read()
    own_socket = kept.sock
    clients = _connected(own.port, 150)
    time.sleep(0.5)
    kept.request("GET", own.key + "/")
    assert kept.getresponse().status == 200 and kept.sock is own_socket
    for each in clients:
        each.close()


def test_a_head_has_ten_seconds(own):
    """In all, and not for each byte of it."""
    start = time.monotonic()
    (client,) = _connected(own.port, 1)
    client.sendall(b"GET / HTTP/1.1\r\n")
    client.settimeout(1.0)
    while time.monotonic() - start < 60:
        try:
            client.send(b"a")
            if client.recv(1) == b"":
                break
        except socket.timeout:
            continue
        except OSError:
            break
    assert HEAD_SECONDS - 1 < time.monotonic() - start < HEAD_SECONDS + 20


@pytest.mark.parametrize("end", [b"\r\n", b"\n"])
def test_requests_that_come_in_one_piece_or_byte_by_byte(own, end):
    lines = [b"GET " + own.key.encode() + FILES.encode() + b" HTTP/1.1", b"Host: 127.0.0.1:%d" % own.port, b"", b""]
    request = end.join(lines)
    (client,) = _connected(own.port, 1)
    client.sendall(b"\r\n" + request * 3)
    for number in range(len(request)):
        client.sendall(request[number:number + 1])
    client.shutdown(socket.SHUT_WR)
    told = b"".join(iter(lambda: client.recv(65536), b""))
    assert told.count(b"HTTP/1.1 200 ") == told.count(b"HTTP/1.1") == 4


@pytest.mark.parametrize("length, status", [(0, 403), (15_000, 403), (17_000, 431), (100_000, 431)])
def test_a_head_of_a_length(own, length, status):
    (client,) = _connected(own.port, 1)
    try:
        client.sendall(b"GET / HTTP/1.1\r\nHost: 127.0.0.1:%d\r\nX: " % own.port + b"a" * length + b"\r\n\r\n")
        assert client.recv(100).startswith(b"HTTP/1.1 %d " % status)
    except ConnectionError:
        assert status == 431
