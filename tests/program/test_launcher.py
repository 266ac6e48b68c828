"""The launcher at the top, in small trees of sources."""
import os
import re
import shutil
import subprocess
import tempfile
import time
from pathlib import Path
from typing import Any, Callable, Dict, Iterator, List, Tuple

import pytest

from command import NOBODY
from dev.judging import Answer, run
from dev.layout import TOP
from trees import LOW, SYSTEM_PATH, Tree, answer, dist_answer

OLD = 1_000_000_000
NONE, KEPT = Answer(70), dist_answer("x")
WHERE, REBUILD = {"NAPLPS_WHERE": "1"}, {"NAPLPS_REBUILD": "1"}


@pytest.fixture
def tree(tmp_path: Path) -> Tree:
    """A tree whose program was never built."""
    return Tree(tmp_path.resolve())


def test_program_is_built_once(tree: Tree) -> None:
    """The program is built once, and answers from any folder and through a link."""
    assert tree.start("list", "x") == answer(words="list x")
    assert tree.start() == answer()
    link = tree.top.parent / "link"
    link.symlink_to(tree.launcher)
    assert run([str(link)], stdin=subprocess.DEVNULL) == answer()
    assert tree.builds() == 1


def test_changed_source(tree: Tree) -> None:
    """The program is built again where a source changed, came or went."""
    tree.build()
    tree.write("nap_low/src/inner/deep.rt", "changed")
    assert tree.start() == answer(deep="changed")
    assert tree.builds() == 2
    other = tree.top / "crates" / "nap_low" / "src" / "other.rt"
    other.touch()
    assert tree.start() == answer(deep="changed")
    assert tree.builds() == 3
    other.unlink()
    assert tree.start() == answer(deep="changed")
    assert tree.builds() == 4


def test_crates_beside_one_another(tree: Tree) -> None:
    """A crate that needs none that is being proved is proved beside it, in a copy that goes away."""
    copies = tree.top.parent / "copies"
    copies.mkdir()
    wait = f"for i in $(seq 400); do grep -q 'lib nap_side' '{tree.calls}' && exit; sleep 0.3; done"
    result = tree.run(more={"DURING": wait, "TMPDIR": str(copies)})
    assert result.status == 0, f"{result}"
    places = Path(f"{tree.calls}.places").read_text("ascii").splitlines()
    [beside] = [place for place in places if place.startswith(str(copies)) and place.endswith("/crates/nap_side")]
    own = [str(tree.top / "crates" / name) for name in ("nap_low", "nap_mid", "nap_side")]
    assert sorted(places) == sorted([*own, beside])
    assert places.index(beside) < places.index(own[2]), f"the copy isn't proved first: {places}"
    assert not list(copies.iterdir()), "the copy is left behind"
    for line in (rb"naplps: nap_low is proved: 1 of 4 crates and 40 of some 40 functions, after \d+ s, ",
                 rb"naplps: nap_(mid|side) is proved: 3 of 4 crates and 120 of some 120 functions, after "):
        assert re.search(line, result.err)
    assert "nap_side: so far: 30 of 40 functions checked\n" in (tree.top / "out" / "build.log").read_text("ascii")


@pytest.mark.parametrize("name", ["nap_mid", "nap_side", "nap_low"])
def test_crate_that_fails(tree: Tree, name: str) -> None:
    """A crate that isn't proved ends the build, and leaves no copy behind."""
    copies = tree.top.parent / "copies"
    copies.mkdir()
    assert tree.start(more={"FAILS": name, "TMPDIR": str(copies)}).status == 70
    assert not list(copies.iterdir()), "the copy is left behind"


def unpack_older(older: Path, place: Path) -> None:
    """Puts an older file in place of a source, as tar does."""
    words = ["tar", "--transform", "s/.*/lib.rt/", "-C", str(older.parent), "-c", older.name]
    data = subprocess.run(words, stdout=subprocess.PIPE, check=True).stdout
    subprocess.run(["tar", "-x", "-C", str(place.parent)], input=data, check=True)


def rename_older(older: Path, place: Path) -> None:
    """Puts an older folder in place of a crate."""
    crate, other = place.parents[1], older.parent / "other crate"
    shutil.copytree(crate, other, ignore=shutil.ignore_patterns("out"))
    shutil.copy(older, other / "src" / "lib.rt")
    for path in (other, *other.rglob("*")):
        os.utime(path, (OLD, OLD))
    crate.rename(older.parent / "away")
    other.rename(crate)


@pytest.mark.parametrize("replace", [shutil.copy2, os.replace, unpack_older, rename_older])
def test_older_source(tree: Tree, replace: Callable[[Path, Path], object]) -> None:
    """A source that is replaced by an older one is seen, and so is a folder."""
    tree.build()
    older = tree.top.parent / "older"
    older.write_text("older\n", "ascii")
    os.utime(older, (OLD, OLD))
    replace(older, tree.top / "crates" / LOW)
    assert tree.start() == answer(low="older")
    assert tree.builds() == 2


def test_same_sources(tree: Tree) -> None:
    """Where times alone changed, or what the program isn't made from, nothing is built."""
    tree.build()
    source = tree.write(LOW, "low")
    assert tree.start(rt=False) == answer(), "a source was written again"
    source.touch()
    shutil.copytree(tree.top / "crates" / "nap_low", tree.top / "crates" / "copy")
    tree.write("nap_tests/src/lib.rt", "other tests")
    tree.write("nap_c/src/lib.rt", "another library")
    assert tree.start(rt=False) == answer(), "a source was touched, and tests changed"
    moved = tree.top.with_name("moved")
    tree.top.rename(moved)
    tree.top = moved
    assert tree.start(rt=False) == answer(), "the folder was moved"
    assert tree.builds() == 1


def test_source_that_changes_back(tree: Tree) -> None:
    """A source that changed and changed back is built again, and nothing answers without the toolchain."""
    tree.build()
    tree.write(LOW, "other")
    assert tree.start() == answer(low="other")
    tree.write(LOW, "low")
    assert tree.start(rt=False) == NONE
    assert tree.start() == answer()
    assert tree.builds() == 3


def test_program_of_another_tree(tmp_path: Path) -> None:
    """A program that was copied from another tree doesn't answer."""
    one, other = Tree(tmp_path, "one"), Tree(tmp_path, "other")
    one.build()
    other.write(LOW, "other")
    time.sleep(0.02)
    shutil.copytree(one.top / "out", other.top / "out")
    assert other.start() == answer(low="other")


def test_source_that_changes_meanwhile(tree: Tree) -> None:
    """A program doesn't answer where a source changed while it was built."""
    tree.build()
    source = tree.write(LOW, "other")
    tree.start(more={"MEANWHILE": f"echo low > '{source}'"})
    assert tree.start() == answer()


def test_source_that_changes_back_meanwhile(tree: Tree) -> None:
    """A program doesn't answer where a source was another one only while it was built."""
    source = tree.top / "crates" / LOW
    tree.start(more={"DURING": f"echo other > '{source}'", "MEANWHILE": f"echo low > '{source}'"})
    assert "other" in (tree.top / "out" / "naplps").read_text("ascii"), "the source didn't change"
    assert tree.start() == answer()
    assert tree.builds() == 2


def test_link_among_the_sources(tree: Tree) -> None:
    """Nothing answers where a link stands among the sources."""
    tree.build()
    (tree.top / "crates" / "nap_low" / "src" / "link.rt").symlink_to("lib.rt")
    assert tree.start() == NONE


def test_dist_program(tree: Tree) -> None:
    """A kept program that was made from the sources answers with no toolchain, and says nothing of its own."""
    tree.keep()
    for _ in range(2):
        assert tree.run("list", "x", rt=False) == dist_answer("list x")
    tree.write(LOW, "low")
    assert tree.start("x", rt=False) == dist_answer("x"), "a source was written again"
    tree.write("nap_tests/src/lib.rt", "other tests")
    assert tree.start("x", rt=False) == dist_answer("x"), "tests changed"


def test_input_of_the_first_start(tree: Tree) -> None:
    """A kept program reads the input of the first start."""
    tree.keep("-n; cat #")
    assert tree.run(text=b"a page", rt=False) == Answer(0, b"a page")


def test_dist_program_of_other_sources(tree: Tree) -> None:
    """A kept program that was made from other sources doesn't answer until they are back."""
    tree.keep()
    assert tree.start(rt=False) == dist_answer()
    source = tree.write(LOW, "changed")
    assert tree.start(rt=False) == NONE
    stderr = tree.run(rt=False).err
    assert b"naplps was made from other sources than these\n" in stderr
    assert b"git status shows what differs\n" in stderr and stderr.count(b"\n") == 2
    assert tree.start() == answer(low="changed")
    source.write_text("low\n", "ascii")
    assert tree.start("x", rt=False) == dist_answer("x")


def test_build_in_any_case(tree: Tree) -> None:
    """NAPLPS_REBUILD=1 builds beside a kept program, whose bytes are compared; the new one answers from then on."""
    tree.keep()
    assert tree.start(rt=False, more=REBUILD) == NONE
    assert tree.start("x", more=REBUILD) == answer(words="x")
    assert tree.start("x", rt=False) == answer(words="x")
    assert tree.builds() == 1
    assert b"with the bytes of" not in tree.run(more=REBUILD).err
    shutil.copy(tree.top / "out" / "naplps", tree.dist_program)
    assert b"with the bytes of" in tree.run(more=REBUILD).err
    tree.keep("later")
    assert tree.start("x", rt=False) == answer(words="x"), "a later kept program of the same sources"
    tree.dist_program.unlink()
    assert tree.start("x", rt=False) == answer(words="x"), "none is kept any more"


@pytest.mark.parametrize("place, before, after, expected", [
    pytest.param(LOW, "low", "low // the lowest", KEPT, id="a comment"),
    pytest.param(LOW, "low", "\n\n  low\n", KEPT, id="blank lines"),
    pytest.param(LOW, "low", "/* a /* b */ c */ low", KEPT, id="a comment within one"),
    pytest.param("nap_low/specs/Lib.antt", "specs", "-- all of them\nspecs {- a {- b -} -}", KEPT,
                 id="a comment of definitions"),
    pytest.param("nap_low/proofs/Lib.antt", "proofs", "\nproofs -- done", KEPT, id="a comment of a proof"),
    pytest.param(LOW, "low", 'low "a // b"', NONE, id="a string"),
    pytest.param(LOW, "low", "low low", NONE, id="one token more"),
    pytest.param(LOW, "low", "lo w", NONE, id="a token parted"),
    pytest.param(LOW, 'low "a // b"', 'low "a // c"', NONE, id="a mark of comments in a string"),
])
def test_tokens(tree: Tree, place: str, before: str, after: str, expected: Answer) -> None:
    """Each token asks for another program; comments, blank lines and layout don't, where Python can tell."""
    tree.write(place, before)
    tree.keep()
    assert tree.start("x", rt=False) == KEPT
    tree.write(place, after)
    for _ in range(2):
        assert tree.start("x", rt=False) == expected


def test_no_python(tree: Tree) -> None:
    """Without Python a kept program answers that has the bytes of the sources, or was known to before."""
    words = ["unshare", "--mount", "sh", "-c", 'mount --bind /dev/null /usr/bin/python3 && exec "$@"', "sh"]
    options: Dict[str, Any] = {"env": {"PATH": "/usr/sbin:/usr/bin:/sbin:/bin"}, "cwd": "/"}
    if run([*words, "true"], **options).status:
        pytest.skip("a system without Python takes root")
    tree.keep()
    tree.write(LOW, "low // the lowest")
    assert tree.start(rt=False) == dist_answer()
    assert run([*words, tree.launcher], **options) == dist_answer(), "Python has found the same sources before"
    shutil.rmtree(tree.top / "out")
    result = run([*words, tree.launcher], **options)
    assert result.status == 70 and b"with Python, comments need none" in result.err
    tree.keep()
    assert run([*words, tree.launcher], **options) == dist_answer()


def with_byte_more(tree: Tree) -> None:
    """The program of dist has one byte more."""
    tree.dist_program.write_bytes(tree.dist_program.read_bytes() + b"\n")


def without_sums(tree: Tree) -> None:
    """MADE has no sums but the program's."""
    line = tree.sums.read_text("ascii").splitlines()[1]
    tree.sums.write_text(f"program-sources:\nprogram-files:\n{line}\n", "ascii")


ALTERED: Dict[str, Tuple[Callable[[Tree], object], bytes]] = {
    "one byte more": (with_byte_more, b"has other bytes than"),
    "one byte less": (lambda tree: os.truncate(tree.dist_program, tree.dist_program.stat().st_size - 1),
                      b"has other bytes than"),
    "no sum of the sources": (lambda tree: tree.sums.write_text("naplps: 0\n"), b"made from other sources"),
    "empty sums": (without_sums, b"made from other sources"),
    "an empty MADE": (lambda tree: tree.sums.write_text(""), b"made from other sources"),
    "no MADE": (lambda tree: tree.sums.unlink(), b""),
    "no program": (lambda tree: tree.dist_program.unlink(), b""),
    "no dist": (lambda tree: shutil.rmtree(tree.top / "dist"), b""),
}


@pytest.mark.parametrize("alter, reason", ALTERED.values(), ids=ALTERED)
def test_altered_program(tree: Tree, alter: Callable[[Tree], object], reason: bytes) -> None:
    """A kept program that was altered never answers, and the reason is named."""
    tree.keep()
    alter(tree)
    assert tree.start("x", rt=False) == NONE
    stderr = tree.run("x", rt=False).err
    assert reason in stderr and b"rt isn't on PATH" in stderr
    assert tree.start("x") == answer(words="x")


def test_program_that_does_not_run(tree: Tree) -> None:
    """A kept program that doesn't run here never answers, and the reason is named."""
    tree.keep("x; echo no such library >&2; exit 127 #")
    result = tree.run("x", rt=False)
    assert (result.status, result.out) == (70, b"")
    assert b"naplps doesn't run here: no such library\n" in result.err and b"needs glibc 2.34" in result.err


def test_program_without_its_mode(tree: Tree) -> None:
    """A kept program without the mode of a program answers."""
    tree.keep()
    tree.dist_program.chmod(0o644)
    assert tree.start("x", rt=False) == dist_answer("x")


def test_where(tree: Tree) -> None:
    """NAPLPS_WHERE=1 prints the path of the program, and builds nothing."""
    assert tree.start("x", more=WHERE) == NONE, "it was never built"
    place = Answer(0, f"{tree.top}/out/naplps\n".encode())
    tree.keep()
    assert tree.start("x", rt=False, more=WHERE) == place
    tree.write(LOW, "changed")
    assert tree.start("x", more=WHERE) == NONE, "a source changed"
    assert tree.builds() == 0
    assert tree.start() == answer(low="changed")
    assert tree.start("x", more={**WHERE, **REBUILD}) == place
    assert tree.builds() == 1


def test_naplps_pages(tree: Tree) -> None:
    """naplps-pages asks the kept program, before anything else was run; and builds nothing."""
    for name in ("pages", "python"):
        shutil.copytree(TOP / name, tree.top / name, ignore=shutil.ignore_patterns("__pycache__"))
    shutil.copy(TOP / "VERSION", tree.top)
    tree.keep("-n; [ batch != $1 ] || { read -r line; echo accepted 7 entries; echo 0; } #")
    words: List[str] = [str(tree.top / "pages" / "naplps-pages"), "check", "-"]
    options: Dict[str, Any] = {"text": b"\x0e\x26\x52", "stdin": subprocess.PIPE, "cwd": "/"}
    assert run(words, env=tree.environment(), **options) == Answer(0, b"accepted 7 entries\n")
    tree.write(LOW, "changed")
    result = run(words, env=tree.environment(rt=False), **options)
    assert result.status == 3 and b"was made from other sources" in result.err and result.err.count(b"\n") == 1
    assert tree.builds() == 0


# What a strange folder may have as its own: commands, and modules of Python.
COMMANDS = (
    "awk", "bash", "cat", "chmod", "cp", "cut", "env", "find", "flock", "mkdir", "mktemp", "mv", "nproc", "python3",
    "readlink", "rm", "rt", "sh", "sha256sum", "sort", "tail", "touch", "uname", "xargs",
)
MODULES = (
    "argparse", "dev", "functools", "hashlib", "json", "os", "pathlib", "random", "re", "runpy", "shutil",
    "sitecustomize", "subprocess", "tempfile", "typing", "usercustomize",
)
# What an environment may tell a shell or Python, with the folder's path for @.
ENVIRONMENTS: Dict[str, Dict[str, str]] = {
    "an empty folder in PATH": {"PATH": f":{SYSTEM_PATH}"},
    "the current folder in PATH": {"PATH": f".:{SYSTEM_PATH}"},
    "the current folder by its whole path": {"PATH": f"@:{SYSTEM_PATH}"},
    "no PATH": {"PATH": ""},
    "files to read": {"BASH_ENV": "@/read", "ENV": "@/read", "PATH": SYSTEM_PATH},
    "functions": {"PATH": SYSTEM_PATH, **{f"BASH_FUNC_{name}%%": "() { touch @/ran; }" for name in COMMANDS}},
    "settings": {
        "PATH": SYSTEM_PATH, "FUNCNEST": "1", "GLOBIGNORE": "*", "EXECIGNORE": "*", "CDPATH": "/usr", "TMOUT": "1",
        "POSIXLY_CORRECT": "1", "BASH_COMPAT": "3.2", "SHELLOPTS": "noexec:xtrace", "BASHOPTS": "failglob", "IFS": "/",
    },
    "modules of Python": {"PATH": SYSTEM_PATH, "PYTHONPATH": "@", "PYTHONUSERBASE": "@", "PYTHONSTARTUP": "@/read"},
    "a home of Python": {"PATH": SYSTEM_PATH, "PYTHONHOME": "@", "PYTHONPATH": "@", "HOME": "@"},
}


def plant(folder: Path, marks: Path) -> None:
    """Puts commands, modules, and a file for shells into a folder; each of them leaves a mark."""
    for name in (*COMMANDS, "read"):
        (folder / name).write_text(f"#!/bin/sh\n: > '{marks}'\n", "ascii")
        (folder / name).chmod(0o755)
    for name in MODULES:
        (folder / f"{name}.py").write_text(f"open({str(marks)!r}, 'w').close()\n", "ascii")


@pytest.mark.parametrize("environment", ENVIRONMENTS.values(), ids=ENVIRONMENTS)
def test_strange_folder(tree: Tree, environment: Dict[str, str]) -> None:
    """Commands and modules of the current folder, and files, functions and settings of the environment, change
    nothing."""
    strange, seen = tree.top.parent / "strange", tree.top.parent / "seen"
    strange.mkdir()
    plant(strange, strange / "ran")
    env = {name: text.replace("@", str(strange)) for name, text in environment.items()}
    tree.keep()
    for _ in range(2):
        assert tree.run("x", env=env, cwd=strange) == dist_answer("x")
    tree.write(LOW, "low // the lowest")
    assert tree.run("x", env=env, cwd=strange) == dist_answer("x"), "Python finds the same sources"
    tree.write(LOW, "changed")
    result = tree.run("x", env=env, cwd=strange)
    assert result.status == 70 and b"rt isn't on PATH" in result.err
    env.update(PATH=f"{env['PATH']}:{tree.tools}", CALLS=str(tree.calls), DURING=f"env > '{seen}'")
    assert tree.start("x", env=env, cwd=strange).out == answer(low="changed", words="x").out
    lines = seen.read_text("ascii").splitlines()
    assert f"PATH={SYSTEM_PATH}:{tree.tools}" in lines, "rt has another PATH"
    assert [line for line in lines if line.startswith("BASH_FUNC_")] == [], "rt has functions"
    assert not (strange / "ran").exists(), "something of the folder ran"


@pytest.mark.parametrize("folder", ["", "scripts", "dev"])
def test_strange_files_among_the_sources(tree: Tree, folder: str) -> None:
    """Commands and modules beside the launcher, with its folder as the current one, change nothing."""
    tree.keep()
    plant(tree.top / folder, tree.top / "ran")
    tree.write(LOW, "low // the lowest")
    for path in (SYSTEM_PATH, f".:{SYSTEM_PATH}"):
        env = {"PATH": path, "PYTHONPATH": "."}
        assert run(["./naplps", "x"], env=env, cwd=tree.top, stdin=subprocess.DEVNULL) == dist_answer("x")
        shutil.rmtree(tree.top / "out")
    assert not (tree.top / "ran").exists(), "something beside the launcher ran"


@pytest.mark.parametrize("mode", [0o777, 0o775], ids=["all", "a group"])
@pytest.mark.parametrize("is_folder", [True, False], ids=["its folder", "the file"])
def test_toolchain_of_others(tree: Tree, mode: int, is_folder: bool) -> None:
    """No toolchain is run to which others can write."""
    (tree.tools if is_folder else tree.tools / "rt").chmod(mode)
    result = tree.run()
    assert result.status == 70 and b"isn't run, since others than you and root can write" in result.err
    assert tree.calls.read_text("ascii") == "", "rt ran"


def test_next_toolchain(tree: Tree) -> None:
    """A toolchain is run that stands behind one to which others can write."""
    other = tree.top.parent / "other"
    other.mkdir()
    shutil.copy(tree.tools / "rt", other)
    other.chmod(0o777)
    assert tree.start(more={"PATH": f"{other}:{tree.tools}"}) == answer()


@pytest.fixture
def open_tree() -> Iterator[Tree]:
    """A tree that any user can read. (pytest closes the folders of its own to others at each start.)"""
    with tempfile.TemporaryDirectory() as name:
        Path(name).chmod(0o755)
        yield Tree(Path(name).resolve())


@pytest.fixture
def nobody() -> Dict[str, Any]:
    """The options of a run as a user who can write nothing."""
    if os.geteuid() != 0:
        pytest.skip("another user takes root")
    return {"user": NOBODY, "group": NOBODY, "extra_groups": []}


def unwritable(tree: Tree) -> Answer:
    """The answer where out can't be written."""
    line = f"naplps: there is no program of these sources, and none can be built, since {tree.top}/out can't be written"
    return Answer(70, b"", f"{line}\n".encode())


def test_built_program_where_out_is_unwritable(open_tree: Tree, nobody: Dict[str, Any]) -> None:
    """Where out can't be written the program answers while it is that of the sources, and else one line says why."""
    open_tree.build()
    assert open_tree.start(**nobody) == answer()
    source = open_tree.write(LOW, "low")
    assert open_tree.start(**nobody) == answer(), "a source was written again"
    source.write_text("other\n", "ascii")
    assert open_tree.run("check", **nobody) == unwritable(open_tree)


def test_dist_program_where_out_is_unwritable(open_tree: Tree, nobody: Dict[str, Any]) -> None:
    """Where out can't be written the kept program answers where it stands, if it is that of the sources."""
    assert open_tree.run("check", **nobody) == unwritable(open_tree)
    open_tree.keep()
    assert open_tree.start("x", rt=False, **nobody) == dist_answer("x")
    assert open_tree.start(rt=False, more=WHERE, **nobody) == Answer(0, f"{open_tree.dist_program}\n".encode())
    with_byte_more(open_tree)
    assert open_tree.start("x", **nobody) == NONE, "an altered one"
    assert open_tree.start("x", more=REBUILD, **nobody) == NONE, "built in any case"


@pytest.mark.parametrize("is_in_dist, count, builds", [(False, 4, 1), (True, 8, 0)], ids=["build", "kept program"])
def test_starts_at_once(tree: Tree, is_in_dist: bool, count: int, builds: int) -> None:
    """Starts at once build once, and not at all where a program is kept."""
    if is_in_dist:
        tree.keep()
    starts = [subprocess.Popen([tree.launcher], env=tree.environment(MEANWHILE="sleep 0.3"), stdout=subprocess.PIPE,
                               stderr=subprocess.DEVNULL, stdin=subprocess.DEVNULL) for _ in range(count)]
    expected = dist_answer() if is_in_dist else answer()
    assert [start.communicate()[0] for start in starts] == [expected.out] * count
    assert tree.builds() == builds
