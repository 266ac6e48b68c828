"""What scripts/install and its --remove do to files of others, under every prefix that may be handed to it.
test_installed.py tries what is installed."""
import os
import resource
import shutil
import stat
from pathlib import Path
from typing import Callable, Dict, Tuple, Union

import pytest

from dev.judging import Answer, run
from dev.layout import TOP, File
from dev.packaging.installed import LIST, MOST_FILE, sum_of

INSTALL = str(TOP / "scripts" / "install")
FOREIGN = b"somebody's own\n"
OWN_LINE = f"{sum_of(File(FOREIGN, 0o644))}  "
LONG = 1 << 43
README = "share/doc/naplps/README.md"
STAYS = "install: {} stays, since it was changed after it was installed\n"
LEADING_OUT = (
    "../victim", "{top}/victim", "bin/../../victim", "./bin/other", "bin//other", "share/victim", "bin/\x1b[31mother",
    "bin/other\x85", "lib/naplps/../../../victim", "..", ".", "",
)
NO_LISTS = (
    b"", b"bin/other\n", b"\0\xff\n", b"0" * 64 + b" bin/other\n", b"../victim/\n", b"x" * 5_000_000, b"\n\n",
    b"A" * 64 + b"  bin/other\n",
)
KINDS: Dict[str, Callable[[Path], object]] = {
    "file": lambda path: path.write_bytes(FOREIGN), "folder": os.mkdir, "pipe": os.mkfifo,
    "link": lambda path: path.symlink_to("/etc/passwd"),
}


class Prefix:
    """A prefix in a folder, and a file beside it that has to stay as it is."""

    def __init__(self, folder: Path, program: Path, name: str = "prefix") -> None:
        self.path, self.victim, self.program = folder / name, folder / "victim", program
        self.victim.write_bytes(FOREIGN)

    def install(self, *words: str, mask: int = 0o022, memory: int = resource.RLIM_INFINITY) -> Answer:
        """Installs, without the library, since there is no cc on the path; its output isn't looked at."""
        def limit() -> None:
            os.umask(mask)
            resource.setrlimit(resource.RLIMIT_AS, (memory, memory))
        env = {"PATH": "/nonexistent", "NAPLPS": str(self.program)}
        result = run([INSTALL, *words, str(self.path)], env=env, preexec_fn=limit)
        lines = [line for line in result.err.splitlines(True) if b"without the library" not in line]
        return Answer(result.status, b"", b"".join(lines))

    def installs(self, *words: str, stays: str = "", mask: int = 0o022) -> None:
        """Installs, or removes with --remove, and tells nothing but which file stays."""
        stderr = STAYS.format(self.path / stays).encode() if stays else b""
        result = self.install(*words, mask=mask)
        assert result == Answer(0, b"", stderr), str(result)

    def refuses(self, *words: str, name: str = "") -> None:
        """Ends with one line on standard error, which names a path."""
        result = self.install(*words)
        assert result.status == 1 and result.err.count(b"\n") == 1, str(result)
        assert str(self.path / name if name else "").encode() in result.err, str(result)

    def write(self, name: str, text: bytes = FOREIGN) -> Path:
        """Writes a file under the prefix."""
        path = self.path / name
        path.parent.mkdir(parents=True, exist_ok=True)
        path.write_bytes(text)
        return path

    def listing(self) -> Dict[str, Tuple[int, bytes]]:
        """The mode and the bytes of all under the prefix, a link's being where it leads."""
        found = {}
        for path in self.path.rglob("*"):
            mode = path.lstat().st_mode
            data = os.fsencode(os.readlink(path)) if path.is_symlink() else path.read_bytes() if path.is_file() else b""
            found[str(path.relative_to(self.path))] = (mode, data)
        return found


@pytest.fixture(scope="module")
def program(naplps: str, tmp_path_factory: pytest.TempPathFactory) -> Path:
    """A copy of the program."""
    return Path(shutil.copy(naplps, tmp_path_factory.mktemp("program") / "program"))


@pytest.fixture
def prefix(tmp_path: Path, program: Path) -> Prefix:
    """A prefix, which isn't there yet."""
    return Prefix(tmp_path, program)


@pytest.mark.parametrize("option", ["", "--remove"])
@pytest.mark.parametrize("total", ["", OWN_LINE], ids=["bare", "sum"])
@pytest.mark.parametrize("name", LEADING_OUT, ids=ascii)
def test_name_that_leads_out_of_the_prefix_is_refused(prefix: Prefix, tmp_path: Path, name: str, total: str,
                                                      option: str) -> None:
    """A list with such a name is refused, and nothing is removed."""
    outside = tmp_path / "elsewhere"
    outside.mkdir()
    (outside / "victim").write_bytes(FOREIGN)
    prefix.write("bin/other")
    (prefix.path / "share").symlink_to(outside)
    prefix.write(LIST, f"{OWN_LINE}bin/other\n{total}{name.format(top=tmp_path)}\n".encode("utf-8"))
    before = prefix.listing()
    prefix.refuses(*option.split())
    assert prefix.listing() == before
    assert prefix.victim.read_bytes() == (outside / "victim").read_bytes() == FOREIGN


@pytest.mark.parametrize("option", ["", "--remove"])
@pytest.mark.parametrize("text", [*NO_LISTS, "pipe", "folder", "link"], ids=lambda text: ascii(text[:16]))
def test_list_of_another_form_is_refused(prefix: Prefix, text: Union[bytes, str], option: str) -> None:
    """A file that isn't such a list, or is no file, is refused, and nothing changes."""
    prefix.write("bin/other")
    prefix.write("lib/naplps/other")
    if isinstance(text, bytes):
        prefix.write(LIST, text)
    else:
        KINDS[text](prefix.path / LIST)
    before = prefix.listing()
    prefix.refuses(*option.split())
    assert prefix.listing() == before


@pytest.mark.parametrize("name, kind", [
    ("bin/naplps", "file"), ("bin/naplps", "victim"), ("bin/naplps", "folder"), ("bin/naplps", "pipe"),
    ("share/man/man1/naplps.1", "file"), ("bin", "file"), ("share", "file"),
])
def test_file_of_others_stays(prefix: Prefix, name: str, kind: str) -> None:
    """One in the place of one of ours is named, and nothing is installed."""
    path = prefix.path / name
    path.parent.mkdir(parents=True)
    if kind == "victim":
        path.symlink_to(prefix.victim)
    else:
        KINDS[kind](path)
    before = prefix.listing()
    prefix.refuses(name=name)
    assert prefix.listing() == before
    assert prefix.victim.read_bytes() == FOREIGN


def test_files_beside_ours_stay(prefix: Prefix) -> None:
    """Files of others in the same folders are neither replaced nor removed."""
    paths = [prefix.write(name) for name in ("bin/naplps.new", "lib/naplps/other", f"{README}.new")]
    prefix.installs()
    prefix.installs("--remove")
    assert [path.read_bytes() for path in paths] == [FOREIGN] * 3
    assert sorted(path for path in prefix.path.rglob("*") if path.is_file()) == sorted(paths)


def test_long_file_of_others_is_not_read(prefix: Prefix) -> None:
    """A sparse file of 8 TB in the place of one of ours stays, also where the list has it."""
    path = prefix.write("bin/naplps")
    os.truncate(path, LONG)
    prefix.refuses(name="bin/naplps")
    assert not (prefix.path / LIST).exists()
    prefix.write(LIST, f"{OWN_LINE}bin/naplps\n".encode())
    prefix.refuses(name="bin/naplps")
    prefix.installs("--remove", stays="bin/naplps")
    assert path.stat().st_size == LONG


def test_large_file_of_others_is_read_by_pieces(prefix: Prefix) -> None:
    """One of the greatest length that is read takes no memory of that length."""
    os.truncate(prefix.write("bin/naplps"), MOST_FILE)
    result = prefix.install(memory=MOST_FILE)
    assert result.status == 1 and result.err.count(b"\n") == 1, str(result)
    assert str(prefix.path / "bin/naplps").encode() in result.err, str(result)


def test_program_that_is_too_long_is_not_installed(program: Path, tmp_path: Path) -> None:
    """It has more bytes than are read of a file."""
    longer = Path(shutil.copy(program, tmp_path / "program"))
    os.truncate(longer, MOST_FILE + 1)
    prefix = Prefix(tmp_path, longer)
    result = prefix.install()
    line = b"install: bin/naplps has more than 256 MiB, so nothing was installed\n"
    assert result == Answer(1, b"", line), str(result)
    assert not prefix.path.exists()


def test_changed_file_stays(prefix: Prefix) -> None:
    """A file that was changed after it was installed is neither replaced nor removed, and is named."""
    prefix.installs()
    before = prefix.listing()
    prefix.installs()
    assert prefix.listing() == before, "a second time gives something else"
    readme = prefix.write(README)
    prefix.refuses(name=README)
    prefix.installs("--remove", stays=README)
    assert [path for path in prefix.path.rglob("*") if not path.is_dir()] == [readme]
    assert readme.read_bytes() == FOREIGN


def test_earlier_copy_is_replaced(prefix: Prefix, program: Path) -> None:
    """What the earlier copy alone had is removed; one that was only half put there is replaced too."""
    earlier = {"bin/naplps": b"old program", "share/doc/naplps/old/gone.md": b"gone", "share/naplps-old": b"gone too"}
    for name, data in earlier.items():
        prefix.write(name, data)
    sums = "".join(f"{sum_of(File(data, 0o644))}  {name}\n" for name, data in earlier.items())
    prefix.write(LIST, f"share/doc/naplps/old/\nbin/\n{sums}".encode())
    prefix.installs()
    after = prefix.listing()
    assert not {"share/doc/naplps/old/gone.md", "share/naplps-old"} & set(after)
    assert after["bin/naplps"][1] == program.read_bytes()
    lines = (prefix.path / LIST).read_text("utf-8").splitlines()
    prefix.write("bin/naplps", b"old program")
    (prefix.path / README).unlink()
    prefix.write(LIST, "\n".join([*lines, *sums.splitlines()]).encode())
    prefix.installs()
    assert prefix.listing() == after, "over a copy that was half put there"
    prefix.installs("--remove")
    assert set(prefix.listing()) == {"lib", "lib/naplps", "share", "share/doc", "share/doc/naplps"}


def test_every_user_can_read_what_is_installed(tmp_path: Path, program: Path) -> None:
    """The mask for new files changes nothing."""
    listings = []
    for mask in (0o022, 0o077, 0o000, 0o777):
        (tmp_path / f"{mask:o}").mkdir()
        prefix = Prefix(tmp_path / f"{mask:o}", program, "deep/prefix")
        prefix.installs(mask=mask)
        listings.append(prefix.listing())
        for path in (prefix.path.parent, prefix.path):
            assert stat.S_IMODE(path.stat().st_mode) == 0o755, f"under {mask:o} {path.name} can't be read"
    for name, (mode, _) in listings[0].items():
        is_open = stat.S_ISDIR(mode) or name in ("bin/naplps", "bin/naplps-pages")
        assert stat.S_IMODE(mode) == (0o755 if is_open else 0o644), f"{name} has the mode {mode:o}"
    assert all(listing == listings[0] for listing in listings)
