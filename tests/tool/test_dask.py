"""Scans on Dask's distributed: the same tables, workers and schedulers that end, and workers that aren't alike."""
import json
import os
import re
import signal
import socket
import subprocess
import threading

import pytest

from command import COMMAND, bare
from hostile_modules import hostile_folder
from naplps_pages.cli import main
from naplps_pages.collection.cluster import address_of, alike, difference
from naplps_pages.collection.pool import ClusterFailed
from naplps_pages.collection.tables import hashed
from naplps_pages.packs import inside
from packers import pack
from samples import POINT
from scans import FAKE, count, is_sound, mixed, rows, slow, start, statuses, table, tree, wait_until

PYTHON = "/usr/bin/python3"
WORKER = ("distributed.cli.dask_worker", "--nthreads", "1", "--no-nanny")


class LocalCluster:
    """A scheduler and workers on this machine, in a folder of their own."""

    def __init__(self, folder):
        self.folder = folder
        self.file = os.path.join(folder, "scheduler.json")
        self.processes, self.workers = [], 0
        self.scheduler = self._start("distributed.cli.dask_scheduler", "--port", "0", "--scheduler-file", self.file)
        wait_until(lambda: os.path.exists(self.file) and os.path.getsize(self.file), self.scheduler)

    def worker(self, cwd=None, before=""):
        """Starts a worker, after words of a shell that sees mounts of its own; waits until the scheduler has it."""
        self.workers += 1
        prefix = ("unshare", "-m", "sh", "-c", before + ' && exec "$@"', "sh") if before else ()
        made = self._start(*WORKER, "--scheduler-file", self.file, "--local-directory", self.folder, cwd=cwd,
                           prefix=prefix)
        words = ("import sys, distributed; client = distributed.Client(scheduler_file=sys.argv[1], timeout=300); "
                 "client.wait_for_workers(int(sys.argv[2]), timeout=300); client.close()")
        subprocess.run([PYTHON, "-c", words, self.file, str(self.workers)], check=True, capture_output=True,
                       timeout=900)
        return made

    def _start(self, module, *words, cwd=None, prefix=()):
        env = dict(os.environ, DASK_DISTRIBUTED__WORKER__PROFILE__INTERVAL="10s",
                   DASK_DISTRIBUTED__SCHEDULER__ALLOWED_FAILURES="9")
        with open(os.path.join(self.folder, "log"), "ab") as log:
            process = subprocess.Popen(
                [*prefix, PYTHON, "-I", "-m", module, "--host", "127.0.0.1", "--no-dashboard", *words], env=env,
                stdin=subprocess.DEVNULL, stdout=log, stderr=log, cwd=cwd or self.folder)
        self.processes.append(process)
        return process

    def close(self):
        """Ends all of them."""
        for each in reversed(self.processes):
            each.kill()
            each.wait()


@pytest.fixture
def cluster(tmp_path):
    pytest.importorskip("distributed")
    folder = str(tmp_path / "cluster")
    os.mkdir(folder)
    made = LocalCluster(folder)
    yield made
    made.close()


def archive(tmp_path, number):
    """Files of all kinds, and packs of some."""
    files = mixed(number)
    top = tree(tmp_path / "pages", files)
    for ending in (".tar", ".tgz", ".zip"):
        pack(os.path.join(top, "pack" + ending), dict(list(files.items())[:number // 4]))
    os.symlink("nowhere", os.path.join(top, "link"))
    return top


def plain(run, top, store, **more):
    """The table of a scan on this machine."""
    said = run(["scan", top, "-o", store + ".plain"], keeps="repair", **more)
    assert said.returncode == 0
    return table(store + ".plain")


def test_no_code_of_the_current_folder_of_a_worker_runs(run, tmp_path, store, cluster):
    folder, ran = hostile_folder(tmp_path)
    cluster.worker(cwd=folder)
    said = run(["scan", folder, "-o", store, "--dask", cluster.file], keeps="repair", cwd=folder)
    assert said.returncode == 0 and not os.path.exists(ran), (said, open(ran).read())


def test_two_workers_of_which_one_is_killed_amid(run, naplps, tmp_path, store, cluster):
    top = archive(tmp_path, 4000)
    first = cluster.worker()
    scan = start(["scan", top, "-o", store, "--dask", cluster.file], naplps, keeps="repair")
    second = cluster.worker()
    wait_until(lambda: count(store) > 0, scan)
    first.kill()
    out, told = scan.communicate()
    assert (told, scan.returncode) == (b"", 0) and second.poll() is None
    wanted = plain(run, top, store)
    assert out.startswith(b"7001 files: ") and out.endswith(b"; 3 packs\n")
    assert table(store) == wanted and is_sound(store)
    said = run(["scan", top, "-o", store, "--dask", address_of(cluster.file)], keeps="repair")
    assert b"; 7000 known, 0 pages asked about; 3 packs\n" in said.stdout and said.returncode == 0


def test_a_scheduler_that_ends_amid(run, fake, tmp_path, store, cluster):
    top, go = archive(tmp_path, 4000), tmp_path / "go"
    program = fake(slow(0.002, go))
    cluster.worker()
    address = address_of(cluster.file)
    scan = start(["scan", top, "-o", store, "--dask", address], program)
    wait_until(lambda: count(store) > 0, scan)
    cluster.scheduler.kill()
    out, told = scan.communicate()
    assert (out, scan.returncode) == (b"", 3)
    assert told.decode() == (
        "naplps-pages: %s: the scheduler isn't there any more; what was taken is kept, and the same command goes on\n"
        % address)
    go.touch()
    taken = count(store)
    assert is_sound(store) and 0 < taken < 7001
    told = run(["files", store]).stdout.decode()
    assert ", was stopped: the same command goes on\n" in told
    other = store + ".other"
    assert run(["scan", top, "-o", store], program=program).returncode == 0
    assert run(["scan", top, "-o", other], program=program).returncode == 0
    assert table(store) == table(other)


@pytest.fixture
def mounts():
    """Skips where nothing can be mounted."""
    if subprocess.run(["unshare", "-m", "true"], capture_output=True).returncode:
        pytest.skip("nothing can be mounted here")


def test_a_worker_with_another_program_is_told_before_any_work(run, fake, tmp_path, store, cluster, mounts):
    top = tree(tmp_path / "pages", {"a": POINT})
    program = fake(FAKE)
    cluster.worker()
    # (one worker sees another file at the path of the program: what is mounted there is seen by it alone)
    tree(tmp_path, {"other": b"#!/bin/sh\n"})
    cluster.worker(before=f"mount --bind '{tmp_path / 'other'}' '{program}'")
    said = run(["scan", top, "-o", store, "--dask", cluster.file], program=program)
    assert (said.stdout, said.returncode) == (b"", 3) and not os.path.exists(store)
    assert said.stderr.decode().endswith(": %s is another program there\n" % program)
    assert said.stderr.count(b"is another program there") == 1


WRITES = "cp -a '{0}/d3/.' '{1}' && mount --bind '{1}' '{0}/d3'"


@pytest.mark.parametrize("mount", ["mount -t tmpfs none '{0}/d3'", "mount --bind '{0}/d2' '{0}/d3'", WRITES,
                                   "mount -t tmpfs none '{0}'", "mount --bind '{0}/d3' '{0}/d3/sub'"])
def test_a_folder_that_is_another_one_on_a_worker(run, tmp_path, store, cluster, mounts, mount):
    """Nothing of it is taken, whatever stands in it, and the worker is named."""
    top = tree(tmp_path / "pages", {"d%d/%03d" % (at % 5, at): b"page %d" % at for at in range(100)})
    tree(top, {"d3/sub/x": POINT})
    other = str(tmp_path / "other")
    os.mkdir(other)
    cluster.worker(before=mount.format(top, other))
    said = run(["scan", top, "-o", store, "--dask", cluster.file])
    assert (said.stdout, said.returncode) == (b"", 3), said
    told = said.stderr.decode()
    assert "naplps-pages: tcp://127.0.0.1:" in told and "is another folder there" in told
    assert not os.path.exists(store) or count(store) == 0
    again = run(["scan", top, "-o", store])
    assert again.returncode == 0 and again.stdout.startswith(b"101 files: 101 accepted")


# A worker that has no rights.
AS_NOBODY = 'exec setpriv --reuid=65534 --regid=65534 --clear-groups "$@"; true'


@pytest.mark.parametrize("others", [0, 1])
def test_what_a_worker_may_not_read_another_is_asked_for(run, run_as_nobody, tmp_path, store, cluster, mounts, others):
    top = tree(tmp_path / "pages", {"d%d/%03d" % (at % 5, at): b"page %d" % at for at in range(100)})
    pack(os.path.join(top, "secret.tar"), {"a": POINT})
    os.chmod(os.path.join(top, "d3"), 0o700)
    for name in ("d4/004", "d4/009", "secret.tar"):
        os.chmod(os.path.join(top, name), 0o600)
    os.chmod(cluster.folder, 0o777)
    os.chmod(cluster.file, 0o644)
    for folder in (top, os.path.dirname(top)):
        os.chmod(folder, 0o755)
    cluster.worker(before=AS_NOBODY)
    if others:
        cluster.worker()
    said = run(["scan", top, "-o", store, "--dask", cluster.file])
    if b"Permission denied" in said.stderr and not said.stdout and others == 0:
        pytest.skip("the tool can't be read by another user here")
    told = said.stderr.decode().splitlines()
    named = [line for line in told if line.startswith("naplps-pages: tcp://127.0.0.1:")]
    if others:
        assert said.returncode == 0 and told == named and len(named) <= 1
        assert all(line.endswith(": some files can't be read there; another worker is asked") for line in named)
        assert table(store) == plain(run, top, store)
    else:
        assert said.returncode == 3 and len(named) == 1 and named[0].endswith(": some files can't be read there")
        shut = ("d4/004", "d4/009", "secret.tar", *("d3/%03d" % at for at in range(3, 100, 5)))
        assert sorted(set(told) - set(named)) == sorted(
            "naplps-pages: %s/%s: Permission denied" % (top, name) for name in shut)


def test_a_worker_that_is_silent_is_named_and_left_out(monkeypatch, capfd, fake, run, tmp_path, store, cluster):
    top = tree(tmp_path / "pages", {"%02d/%04d" % (at // 100, at): b"page %d" % at for at in range(6000)})
    program = fake(slow(0.001))
    first = cluster.worker()
    cluster.worker()
    monkeypatch.setattr("naplps_pages.collection.cluster.SILENT", 25.0)
    monkeypatch.setattr("naplps_pages.collection.cluster.LOOK", 0.5)
    monkeypatch.setattr("naplps_pages.collection.cluster.Cluster.max_files", 200)
    monkeypatch.setenv("NAPLPS", program)

    def stops():
        wait_until(lambda: os.path.exists(store) and count(store) > 0, None)
        first.send_signal(signal.SIGSTOP)
    stopper = threading.Thread(target=stops)
    stopper.start()
    assert main(bare(["scan", top, "-o", store, "--dask", cluster.file]), COMMAND) == 0
    stopper.join()
    first.send_signal(signal.SIGCONT)
    said = capfd.readouterr()
    assert said.out.startswith("6000 files: 6000 accepted ")
    assert re.fullmatch(r"naplps-pages: tcp://127\.0\.0\.1:\d+: this worker has been silent for 25 s: what it has is "
                        r"given to others\n", said.err), said.err
    assert table(store) == plain(run, top, store, program=program)


def test_what_has_to_be_the_same(tmp_path):
    program = str(tmp_path / "program")
    tree(tmp_path, {"program": b"one", "pages/a": POINT})
    top = os.fsencode(tmp_path / "pages")
    here = alike(hashed(b"one"), [top, b"/nowhere"])
    assert here.roots == ((top, os.stat(top).st_ino),) and difference(program, here) is None
    assert difference(program, here._replace(program=hashed(b"two"))) == "%s is another program there" % program
    assert difference(program + "?", here) == "%s?: No such file or directory" % program
    assert difference(program, here._replace(package=b"")).endswith("naplps_pages is another version there")
    assert difference(program, here._replace(roots=((top, 1),))) == "%s is another folder there" % os.fsdecode(top)
    assert difference(program, here._replace(roots=((b"/no/folder", 1),))) == "/no/folder: No such file or directory"


def test_pages_on_which_the_program_fails(run, fake, tmp_path, store, cluster):
    top = tree(tmp_path / "pages", {"%03d" % number: b"page %d" % number for number in range(90)})
    tree(top, {"044 dies": b"die", "045 kills": b"kill its parent"})
    pack(os.path.join(top, "pack.tar"), {"a": b"page", "b": b"kill its parent"})
    cluster.worker()
    said = run(["scan", top, "-o", store, "--dask", cluster.file], program=fake(FAKE))
    reason = "the process that looked at it ended by SIGKILL"
    found = statuses(store)
    assert found["044 dies"] == ("no answer", "the program ended with status 7")
    assert found["045 kills"] == found["pack.tar"] == ("unreadable", reason)
    assert said.returncode == 3 and b"Traceback" not in said.stderr
    assert sum(1 for status, _ in found.values() if status == "accepted") >= 90


def test_a_pack_is_read_in_parts_that_are_not_too_large(run, naplps, tmp_path, store, cluster):
    files = {"%d" % number: b"\x0f%d" % number for number in range(25_000)}
    path = pack(str(tmp_path / "pack.tar"), files)
    cluster.worker()
    said = run(["scan", path, "-o", store, "--dask", cluster.file])
    assert said.stdout == (
        b"25000 files: 25000 accepted (25000 texts), 0 refused; 0 known, 25000 pages asked about; 1 pack\n")
    assert count(store) == 25_001 and rows(store, "SELECT count(*) FROM folders WHERE path = ?", inside(
        os.fsencode(path))) == [(1,)]


def test_no_cluster(run, tmp_path, store):
    with socket.socket() as free:
        free.bind(("127.0.0.1", 0))
        address = "tcp://127.0.0.1:%d" % free.getsockname()[1]
    tree(tmp_path, {"empty.json": b"", "odd.json": b"[1]", "x.json": json.dumps({"address": address}).encode()})
    for where, reason in (("empty.json", "it is no file of a scheduler"), ("odd.json", "it is no file of a scheduler"),
                          ("nowhere.json", "No such file or directory")):
        path = os.path.join(str(tmp_path), where)
        with pytest.raises(ClusterFailed, match=reason):
            address_of(path)
    assert address_of(address) == address_of(str(tmp_path / "x.json")) == address
    pytest.importorskip("distributed")
    said = run(["scan", str(tmp_path), "-o", store, "--dask", str(tmp_path / "odd.json")])
    assert said.returncode == 3 and said.stderr.endswith(b"/odd.json: it is no file of a scheduler\n")
    assert not os.path.exists(store)


def test_dask_that_is_not_installed(naplps, tmp_path, store):
    tree(tmp_path, {"none/distributed.py": b"raise ImportError('none')"})
    # (the command itself reads no PYTHONPATH)
    said = subprocess.run([PYTHON, "-S", COMMAND, "scan", str(tmp_path), "-o", store, "--dask", "127.0.0.1:1"],
                          env=dict(os.environ, NAPLPS=naplps, PYTHONPATH=str(tmp_path / "none")),
                          capture_output=True)
    assert (said.stdout, said.returncode) == (b"", 3)
    assert said.stderr.decode() == (
        "naplps-pages: Dask's distributed isn't there for /usr/bin/python3 (Debian: apt-get install "
        "python3-distributed)\n")
    assert not os.path.exists(store)


@pytest.mark.parametrize("number", [1, 2, len(os.sched_getaffinity(0))])
def test_words_that_exclude_each_other(run, store, number):
    said = run(["scan", "x", "-o", store, "--dask", "a:1", "-j", str(number)])
    assert said.returncode == 2 and b"not allowed with" in said.stderr


@pytest.mark.parametrize("known", [False, True])
def test_a_worker_that_is_silent_before_the_scan_begins(monkeypatch, capfd, naplps, run, tmp_path, store, cluster,
                                                        known):
    """The scheduler has a connection with a worker that it has asked before; one to a new worker can't be made."""
    top = tree(tmp_path / "pages", {"%02d" % at: b"page %d" % at for at in range(60)})
    silent = cluster.worker()
    monkeypatch.setattr("naplps_pages.collection.cluster.SILENT", 25.0)
    monkeypatch.setattr("naplps_pages.collection.cluster.LOOK", 0.5)
    monkeypatch.setenv("NAPLPS", naplps)
    if known:
        assert main(bare(["scan", top, "-o", store + ".first", "--dask", cluster.file]), COMMAND) == 0
        capfd.readouterr()
    silent.send_signal(signal.SIGSTOP)
    silence = r"naplps-pages: tcp://127\.0\.0\.1:\d+: this worker has been silent for 25 s: it gets nothing\n"
    assert main(bare(["scan", top, "-o", store, "--dask", cluster.file]), COMMAND) == 3
    said = capfd.readouterr()
    assert said.out == "" and not os.path.exists(store)
    assert re.fullmatch(silence + r"naplps-pages: tcp://\S+: no worker answers\n", said.err), said.err
    cluster.worker()
    assert main(bare(["scan", top, "-o", store, "--dask", cluster.file]), COMMAND) == 0
    said = capfd.readouterr()
    silent.send_signal(signal.SIGCONT)
    assert said.out.startswith("60 files: 60 accepted ") and re.fullmatch(silence, said.err), said.err
    assert table(store) == plain(run, top, store)
