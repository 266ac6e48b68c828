"""Tries a clone in bare Debian systems that have git and nothing else.

It needs root, debootstrap and Debian's mirror; no test command runs it. FOLDER/SUITE is made where it isn't there, with
Debian's updates. In each the last commit is cloned, and the first commands of README.md are run: at once, by another
user, in a folder that can't be written, over changed sources and a changed dist, by eight at a time; once python3 is
installed there, scripts/test-all --without-proofs --install, whose lines go to FOLDER/SUITE.log, with its minutes and
megabytes, with --browsers those tests too that need one; then naplps-pages, and the packages. In bullseye, whose C
library is too old, one line has to say so. The last line is 'N passed, M failed'.

A system of an earlier run is used again: it loses the packages that a fresh one hasn't, and its temporary files. What
the scripts of those packages left stays: users, folders, links. Remove FOLDER/SUITE for a system without them.
"""
import os
import re
import shlex
import shutil
import subprocess
import sys
import time
from contextlib import contextmanager
from pathlib import Path
from typing import Any, Iterator, List

from dev.judging import Answer, Judge, processor_seconds
from dev.layout import TOP, sources_version, stop
from dev.words import parser_of

MIRROR = "http://deb.debian.org/debian"
SOURCES = """deb {mirror} {suite} main
deb {mirror} {suite}-updates main
deb {mirror}-security {suite}-security main
"""
SUITES = ("bookworm", "trixie", "bullseye")
TOO_OLD = ("bullseye",)
# In a system: the packages that it had when it was made, or has after updates.
FRESH = "var/lib/fresh-packages"
PLACE = "/srv/a folder/naplps"
LINE = b"POINT 4194304,4194304 pel=0,0 colour=own-start\n"
LIST = "echo '0E 26 52 40 40' | ./naplps list --hex"
# All tests that need no toolchain; and those that need a browser too.
TESTS = "scripts/test-all --without-proofs --install"
TESTS_WITH_BROWSERS = "python3 -m dev.tools --install --browsers && scripts/test-all --without-proofs -m 'not proofs'"
# What makes the packages.
PACKAGING = ("gcc", "libc6-dev", "binutils", "dpkg-dev", "debhelper", "bash-completion")


class Root:
    """A bare system in a folder."""

    def __init__(self, judge: Judge, folder: Path) -> None:
        self.judge, self.folder, self.suite = judge, folder, folder.name

    def make(self) -> None:
        """Makes the system, or frees it from what an earlier run left, and puts the last commit into it."""
        if (self.folder / "usr/bin/git").exists():
            self.free()
        else:
            words = ["debootstrap", "--variant=minbase", "--include=git", self.suite, str(self.folder), MIRROR]
            subprocess.run(words, stdout=subprocess.DEVNULL, check=True)
            sources = SOURCES.format(mirror=MIRROR, suite=self.suite)
            (self.folder / "etc/apt/sources.list").write_text(sources, "ascii")
        shutil.copy("/etc/resolv.conf", self.folder / "etc/resolv.conf")
        self.apt("update", "dist-upgrade")
        (self.folder / FRESH).write_text(" ".join(self.packages()), "ascii")
        shutil.rmtree(self.folder / "srv", ignore_errors=True)
        (self.folder / "srv").mkdir()
        subprocess.run(["git", "clone", "-q", "--bare", str(TOP), str(self.folder / "srv/naplps.git")], check=True)
        self.shell(f"git config --global safe.directory '*'; git clone -q /srv/naplps.git '{PLACE}'", "/")

    def packages(self) -> List[str]:
        """The packages that are installed."""
        return self.shell("dpkg-query -W -f '${Package} '", "/").out.decode("ascii").split()

    def free(self) -> None:
        """Removes the packages that a fresh system hasn't, and temporary files."""
        list_of_fresh = self.folder / FRESH
        fresh = list_of_fresh.read_text("ascii").split() if list_of_fresh.exists() else self.packages()
        more = [each for each in self.packages() if each not in fresh or each.startswith(("naplps", "libnaplps"))]
        if more:
            self.apt("purge " + " ".join(more))
        self.apt("clean")
        self.shell("rm -rf /tmp/* /var/tmp/* /root/.cache", "/")

    def apt(self, *commands: str) -> None:
        """Runs commands of apt-get, or ends this."""
        for command in commands:
            said = self.shell(f"DEBIAN_FRONTEND=noninteractive apt-get -qy {command}", "/")
            if said.status:
                raise stop(f"{self.suite}: apt-get {command}: {said}")

    def shell(self, line: str, place: str = PLACE, **options: Any) -> Answer:
        """What a line of a shell answers in the system, in a folder of it."""
        def enter() -> None:
            os.chroot(self.folder)
            os.chdir(place)
        env = {"PATH": "/usr/sbin:/usr/bin:/sbin:/bin", "HOME": "/root", "LC_ALL": "C", **options.pop("env", {})}
        if "user" in options:
            identity = options.pop("user")
            line = f"exec setpriv --reuid={identity} --regid={identity} --clear-groups sh -c {shlex.quote(line)}"
        said = subprocess.run(["/bin/sh", "-c", line], preexec_fn=enter, env=env, stdin=subprocess.DEVNULL,
                              stdout=subprocess.PIPE, stderr=subprocess.PIPE)
        return Answer(said.returncode, said.stdout, said.stderr)

    def takes(self, what: str, line: str, wanted: Answer, most: float, **options: Any) -> None:
        """A line has to answer this, within a number of seconds of a processor. Those are longer where others use the
        machine, so that the line has three tries."""
        for _ in range(3):
            began, before = time.monotonic(), processor_seconds()
            got = self.shell(line, **options)
            seconds, used = time.monotonic() - began, processor_seconds() - before
            if got != wanted or used <= most:
                break
        self.judge.same(wanted, got, f"{self.suite}: {what}")
        self.judge.take(used <= most, f"{self.suite}: {what} took {used:.1f} s of a processor")
        self.judge.close(f"{self.suite}: {what}: {seconds:.2f} s, {used:.2f} of a processor")

    def tells(self, what: str, line: str, told: str, **options: Any) -> None:
        """A line has to end with the status 70, and to tell something."""
        got = self.shell(line, **options)
        right = got.status == 70 and got.out == b"" and re.search(told.encode(), got.err) is not None
        self.judge.take(right, f"{self.suite}: {what}: {got}")
        self.judge.close(f"{self.suite}: {what}: {got.err.decode('utf-8', 'replace').splitlines()[:1]}")

    def installs(self, *packages: str) -> None:
        """Debian's packages are installed."""
        self.apt("update", "install --no-install-recommends " + " ".join(packages))


@contextmanager
def read_only(root: Root) -> Iterator[None]:
    """Nothing can be written in the clone."""
    place = f"{root.folder}{PLACE}"
    subprocess.run(["mount", "--bind", place, place], check=True)
    try:
        subprocess.run(["mount", "-o", "remount,bind,ro", place], check=True)
        yield
    finally:
        subprocess.run(["umount", place], check=True)


def try_first(root: Root) -> None:
    """The first commands, in a clone of one's own, by another user, and where nothing can be written."""
    again = f"rm -rf out && {LIST}"
    root.takes("first start", again, Answer(0, LINE), 1)
    root.takes("second start", LIST, Answer(0, LINE), 0.5)
    root.takes("another user, second start", LIST, Answer(0, LINE), 0.5, user=65534)
    root.takes("first start again", again, Answer(0, LINE), 1)
    root.shell("rm -rf out")
    root.takes("another user, first start", LIST, Answer(0, LINE), 1, user=65534)
    with read_only(root):
        root.takes("a read-only folder", f"touch x 2>/dev/null || {LIST}", Answer(0, LINE), 1)
    many = "for i in 1 2 3 4 5 6 7 8; do (" + LIST + ") & done; wait"
    root.takes("eight at once", f"rm -rf out; {many}", Answer(0, LINE * 8), 4)


def try_changed(root: Root) -> None:
    """Changed sources and a changed dist are told, and git restores both."""
    source, kept = "crates/nap_lines/src/lib.rt", "dist/x86_64-linux-gnu/naplps"
    more = f"echo 'const MORE: u8 = 0;' >> {source}; {LIST}"
    root.tells("a changed source", more, "was made from other sources than these")
    root.takes("brought back", f"git checkout -q {source}; {LIST}", Answer(0, LINE), 1)
    changed = f"rm -rf out; printf x | dd of={kept} bs=1 seek=4096 conv=notrunc 2>/dev/null; {LIST}"
    root.tells("a changed byte of dist", changed, "has other bytes than")
    root.takes("brought back", f"git checkout -q dist; {LIST}", Answer(0, LINE), 1)


@contextmanager
def mounted(root: Root) -> Iterator[None]:
    """The system has processes and devices."""
    mounts = (["-t", "proc", "proc", "proc"], ["-t", "sysfs", "sys", "sys"], ["--rbind", "/dev", "dev"])
    try:
        for *words, place in mounts:
            subprocess.run(["mount", *words, str(root.folder / place)], check=True)
        subprocess.run(["mount", "--make-rslave", str(root.folder / "dev")], check=True)
        yield
    finally:
        for *_, place in reversed(mounts):
            subprocess.run(["umount", "--recursive", "--lazy", str(root.folder / place)])


def megabytes(folder: Path) -> int:
    """How many MB the files of a system take."""
    said = subprocess.run(["du", "-smx", str(folder)], stdout=subprocess.PIPE, encoding="utf-8", check=True)
    return int(said.stdout.split()[0])


def try_tests(root: Root, browsers: bool) -> None:
    """All tests that need no toolchain, as README.md has a new user run them."""
    root.installs("python3")
    began, before, used = time.monotonic(), megabytes(root.folder), processor_seconds()
    with mounted(root):
        result = root.shell(TESTS_WITH_BROWSERS if browsers else TESTS)
    minutes, used, load = (time.monotonic() - began) / 60, processor_seconds() - used, os.getloadavg()[2]
    root.folder.with_suffix(".log").write_bytes(result.out + result.err)
    last = (result.out.decode("utf-8", "replace").splitlines() or [""])[-1]
    root.judge.take(result.status == 0 and " passed" in last, f"{root.suite}: test-all: {last}")
    root.judge.close(f"{root.suite}: test-all: {last}, after {minutes:.0f} minutes at a load of {load:.0f} on "
                     f"{len(os.sched_getaffinity(0))} processors, {used / 60:.0f} of a processor; "
                     f"{megabytes(root.folder) - before} MB more on disk")


def try_pages(root: Root) -> None:
    """naplps-pages, and the packages."""
    check = "rm -rf out; pages/naplps-pages check examples/page.nap"
    root.takes("naplps-pages, first start", check, Answer(0, b"accepted 4 entries\n"), 2)
    root.installs(*PACKAGING)
    made = root.shell("python3 -m dev.package")
    root.judge.take(made.status == 0 and made.out.count(b".deb\n") == 3, f"{root.suite}: dev.package: {made}")
    got = root.shell("apt-get install -qy ./out/*.deb")
    root.judge.take(got.status == 0, f"{root.suite}: apt-get install: {got}")
    version = f"naplps {sources_version()}, canonical form 2\n".encode()
    root.takes("the installed program", "naplps --version", Answer(0, version), 1, place="/")
    line = "cc -o /tmp/entries examples/c/entries.c -lnaplps && /tmp/entries examples/page.nap | wc -l"
    root.takes("the installed library", line, Answer(0, b"4\n"), 4)
    check = "naplps-pages check examples/page.nap"
    root.takes("the installed naplps-pages", check, Answer(0, b"accepted 4 entries\n"), 2)


def main() -> int:
    """Tries all systems, and answers the status."""
    parser = parser_of(__doc__)
    parser.add_argument("--browsers", action="store_true", help="run the tests that need a browser too")
    parser.add_argument("folder", type=Path, metavar="FOLDER", help="where the systems are, or are made")
    parser.add_argument("suites", nargs="*", default=SUITES, metavar="SUITE", help=f"of {', '.join(SUITES)}")
    words = parser.parse_args()
    if os.geteuid() != 0 or shutil.which("debootstrap") is None:
        raise stop("this takes root, and debootstrap (Debian: apt-get install debootstrap)")
    judge = Judge()
    for suite in words.suites:
        root = Root(judge, words.folder.absolute() / suite)
        root.make()
        if suite in TOO_OLD:
            root.tells("the C library is too old", LIST, "doesn't run here: .*GLIBC_.* not found")
            continue
        try_first(root)
        try_changed(root)
        try_tests(root, words.browsers)
        try_pages(root)
    return judge.end()


if __name__ == "__main__":
    sys.exit(main())
