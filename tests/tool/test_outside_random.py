"""Environments and requests by chance: no traceback, and nothing outside changes, of a whole home folder."""
import os
import random
import socket
import subprocess
import time

from command import COMMAND, TOP
from folders import file_hashes
from random_requests import HOST, SECONDS, piece
from samples import OUTSIDE, POINT, SPELLED
from scans import start, tree
from shell_variables import FUNCTIONS, variables

TEXTS = ("", ":", ".", "..", "/", "@", "@/evil", ":@", "-", "--help", "\x1b]0;x\x07", "é", "\udcff", "x" * 5000, "1",
         "0", "() { :; }", "$(touch @/ran)", "`touch @/ran`", "noexec", "*", "~", "C", "en_US.UTF-8")
WORDS = (["check", "a.nap"], ["list", "--json", "a.nap"], ["canon", "a.nap"], ["check", "--explain", "c.nap"],
         ["show", "a.nap"], ["show", "--format", "text", "a.nap"], ["c.nap"], ["fix", "c.nap"], ["--version"],
         ["files", "x.db", "--refused"], ["files", "x.db"], ["files", "--census", "x.db"], ["scan", ".", "-o", "x.db"],
         ["report", "x.db", "-o", "r.html"])


def home_of(tmp_path):
    """A home folder with a folder of pages in it, where a hostile file has each name that a shell may run."""
    home = tree(str(tmp_path / "home"), {".profile": b"x", ".bashrc": b"x", ".ssh/id": b"secret", "notes": b"my own"})
    folder = tree(os.path.join(home, "pages"), {"a.nap": POINT, "b.nap": SPELLED, "c.nap": OUTSIDE})
    for name in {"evil", "naplps", "rt", "rsvg-convert", "python3", "bash", "sh", *FUNCTIONS}:
        with open(os.path.join(folder, name), "w", encoding="ascii") as file:
            file.write(f"#!/bin/sh\n: > {folder}/ran\n")
        os.chmod(os.path.join(folder, name), 0o755)
    return home, folder


def test_environments_by_chance(naplps, tmp_path):
    home, folder = home_of(tmp_path)
    before, chance, names, count = file_hashes(home), random.Random(time.time()), variables(), 0
    end = time.monotonic() + SECONDS
    while time.monotonic() < end:
        some = chance.sample(names, chance.randrange(1, 30))
        said = {name: chance.choice(TEXTS).replace("@", folder) for name in some}
        if chance.random() < 0.3:
            said[f"BASH_FUNC_{chance.choice(FUNCTIONS)}%%"] = f"() {{ : > {folder}/ran; }}"
        said.pop("TMPDIR", None)
        said["HOME"] = home
        if chance.random() < 0.5 or not os.path.isdir(os.path.join(TOP, "crates")):
            said["NAPLPS"] = naplps
        run = subprocess.run([COMMAND, *chance.choice(WORDS)], cwd=folder, env=said, capture_output=True)
        if os.path.exists(os.path.join(folder, "r.html")):
            os.unlink(os.path.join(folder, "r.html"))
        assert run.returncode in (0, 1, 3) and b"Traceback" not in run.stderr + run.stdout, (said, run)
        assert b"the tool itself" not in run.stderr, (said, run.stderr)
        count += 1
    assert file_hashes(home) == before
    print(count, "environments")


def test_requests_by_chance(naplps, run, tmp_path):
    home, folder = home_of(tmp_path)
    assert run(["scan", "pages", "-o", "../x.db"], cwd=home).returncode in (0, 1)
    before, chance, count, told = file_hashes(home), random.Random(time.time()), 0, set()
    served = start(["report", "../x.db", "--serve"], naplps, cwd=home)
    address = served.stdout.readline().decode().strip()
    port, key = int(address.split(":")[2].split("/")[0]), address.split("/")[3].encode()
    end = time.monotonic() + SECONDS
    while time.monotonic() < end:
        request = b"".join(piece(chance, key).replace(b"%d", b"%d" % port) for _ in range(chance.randrange(1, 30)))
        with socket.create_connection((HOST, port), 60) as client:
            client.settimeout(0.05 if chance.random() < 0.9 else 2)
            try:
                client.sendall(request + chance.choice((b"", b"\r\n\r\n")))
                told.add(client.recv(65536)[:12])
            except OSError:
                pass
        count += 1
    served.terminate()
    assert served.wait(60) < 0 and served.stderr.read() == b"" and file_hashes(home) == before
    assert not any(b"500" in each for each in told), told
    print(count, "requests", sorted(told))
