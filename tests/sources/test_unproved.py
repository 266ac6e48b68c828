"""How the program is built without a proof, but for the compilers."""
import subprocess
from pathlib import Path

import pytest

from dev.layout import TOP, version_of
from dev.packaging.kept import NotProved
from dev.rattle.unproved import OF_PROGRAM, WORDS, copy_sources, marked, message_of, recording


def write_program(path: Path, text: str) -> Path:
    """Writes a program in the shell's language."""
    path.parent.mkdir(parents=True, exist_ok=True)
    path.write_text(f"#!/bin/sh\n{text}\n", "ascii")
    path.chmod(0o755)
    return path


def test_the_version_says_that_nothing_is_proved() -> None:
    text = 'const A: u8 = 1;\nconst VERSION: &str = "1.2, form 3";\n'
    assert marked(text) == 'const A: u8 = 1;\nconst VERSION: &str = "1.2, form 3, not proved";\n'
    for wrong in ("", f"{text}{text}"):
        with pytest.raises(NotProved):
            marked(wrong)


def test_such_a_program_is_never_installed(tmp_path: Path) -> None:
    version = (TOP / "VERSION").read_text("ascii").strip()
    program = write_program(tmp_path / "naplps", f"echo naplps {version}, canonical form 2, not proved")
    with pytest.raises(SystemExit):
        version_of(program)


def test_copies_sources_alone(tmp_path: Path) -> None:
    copy_sources(TOP, tmp_path)
    for source in TOP.glob("crates/*/src/**/*.rt"):
        is_same = (tmp_path / source.relative_to(TOP)).read_bytes() == source.read_bytes()
        assert is_same == (source.relative_to(TOP) != WORDS), source
    assert {path.name for path in tmp_path.glob("crates/*/*")} == {"src"}


def test_keeps_the_module(tmp_path: Path) -> None:
    """A clang keeps the module of the program and stops; it does all else as the toolchain's own does."""
    kit, module = tmp_path / "kit, with blanks", tmp_path / "module"
    for name in ("bin/rt", "bin/rtlib.py", "bin/rattle", "toolchain/bin/clang", "toolchain/lib/c", "rlibs/std"):
        write_program(kit / name, f'echo {name} "$@"')
    rt = recording(kit, tmp_path / "recording", module)
    top = rt.parents[1]
    assert not rt.is_symlink()
    assert (top / "bin" / "rattle").resolve() == kit / "bin" / "rattle"
    assert (top / "toolchain" / "lib").resolve() == kit / "toolchain" / "lib"
    (tmp_path / "module.bc").write_bytes(b"BC")
    clang = [str(top / "toolchain" / "bin" / "clang"), "-x", "ir", "module.bc"]
    ran = subprocess.run(clang, cwd=tmp_path, stdout=subprocess.PIPE, encoding="ascii")
    assert (ran.returncode, ran.stdout) == (0, "toolchain/bin/clang -x ir module.bc\n")
    assert not module.exists()
    ran = subprocess.run([*clang, OF_PROGRAM], cwd=tmp_path, stdout=subprocess.PIPE, encoding="ascii")
    assert (ran.returncode, ran.stdout, module.read_bytes()) == (1, "", b"BC")


def test_messages_name_the_sources_themselves() -> None:
    printed = "interpreter: no\n/t/crates/low/src/lib.rt:1: error: no\nrun=none proved=no\n"
    assert message_of(printed, Path("/t"), Path("/top")) == "/top/crates/low/src/lib.rt:1: error: no"
