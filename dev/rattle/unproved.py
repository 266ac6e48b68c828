"""Builds the program of the sources as they are, with no proof.

`rt try` compiles a program that isn't proved, runs it and keeps no file. So it is asked here by a copy of the
toolchain's folder, of links, whose clang keeps the module that it is given and then stops. The module is compiled as
`rt try` has it, with its checks of indices, sums and unwraps, and linked by `rattle-link`. In the sources, which are
copied too, the version gets the words "not proved".
"""
import os
import re
import shlex
import shutil
import subprocess
from pathlib import Path
from typing import Callable, List

from dev.packaging.keeping import link_all, link_toolchain
from dev.packaging.kept import NotProved, ask, toolchain

NOT_PROVED = "not proved"
VERSION = re.compile(r'^const VERSION: &str = "([^"]*)";$', re.MULTILINE)
WORDS = Path("crates", "nap_cli", "src", "words.rt")
TARGET = "x86_64-unknown-linux-gnu"
# The mark of the call of clang that compiles the program.
OF_PROGRAM = "-fsanitize=address"
# As a proved build is compiled, but for fewer passes: clang takes half a minute in place of two.
CLANG = (
    f"--target={TARGET}", "-march=x86-64-v2", "-mllvm", "-no-trap-after-noreturn", "-ffunction-sections",
    "-fdata-sections", "-mllvm", "-trap-unreachable", "-mllvm", "-no-x86-call-frame-opt", "-mllvm",
    "-disable-machine-licm", "-mllvm", "-disable-postra-machine-licm", "-mllvm", "-sink-common-insts=false",
    "--no-default-config", "-no-canonical-prefixes", "-fintegrated-cc1", "-fPIE", "-O1",
)


def marked(text: str) -> str:
    """The text of words.rt with a version that says it isn't proved; raises NotProved where there is no version."""
    changed, count = VERSION.subn(rf'const VERSION: &str = "\1, {NOT_PROVED}";', text)
    if count != 1:
        raise NotProved(f"{WORDS} has {count} lines of the version, and not one")
    return changed


def copy_sources(top: Path, to: Path) -> None:
    """Copies crates.txt and the sources of each crate, and marks the version."""
    shutil.copy(top / "crates.txt", to)
    for source in sorted(top.glob("crates/*/src")):
        shutil.copytree(source, to / source.relative_to(top))
    words = to / WORDS
    words.write_text(marked(words.read_text("utf-8")), "utf-8")


def recording(kit: Path, to: Path, module: Path) -> Path:
    """Makes a toolchain's folder whose clang keeps the program's module and stops; the path of its rt."""
    link_all(kit, to, "bin", "toolchain")
    link_all(kit / "bin", to / "bin", "rt", "rtlib.py")
    # (rt finds its toolchain by where it is itself)
    for name in ("rt", "rtlib.py"):
        shutil.copy(kit / "bin" / name, to / "bin")
    copied = f"cp -- *.bc {shlex.quote(str(module))}; exit 1"
    link_toolchain(kit / "toolchain", to / "toolchain",
                   f"case \" $* \" in\n    *' {OF_PROGRAM} '*) {copied} ;;\nesac\n")
    return to / "bin" / "rt"


def message_of(printed: str, tree: Path, top: Path) -> str:
    """What rt printed, with the paths of the sources themselves, and without what a try alone says."""
    lines = printed.replace(f"{tree}/", f"{top}/").splitlines()
    return "\n".join(line for line in lines if not re.match(r"run=|interpreter|checked:", line))


def compile_module(kit: Path, module: Path, folder: Path, program: Path) -> None:
    """Compiles and links the program; raises NotProved."""
    tools, compiled = kit / "toolchain", folder / "program.o"
    clang: List[object] = [tools / "bin" / "clang", f"--sysroot={tools}", *CLANG]
    ask(*clang, "-c", "-x", "ir", module, "-o", compiled, folder=folder, errors=subprocess.STDOUT)
    libraries = [kit / "c" / name for name in ("libos_c.a", "liblibc_c.a")]
    link: List[object] = [kit / "bin" / "rattle-link", "--target", TARGET, "--toolchain", tools]
    ask(*link, "-o", program, compiled, *libraries, folder=folder, errors=subprocess.STDOUT)


def build(top: Path, folder: Path, change: Callable[[Path], None] = lambda tree: None) -> Path:
    """Builds the program of the sources at `top` in an empty folder, with a change that is made in a copy of them;
    raises NotProved where they aren't a program's."""
    kit, tree, module, program = toolchain(), folder / "tree", folder / "module.bc", folder / "naplps"
    tree.mkdir()
    copy_sources(top, tree)
    change(tree)
    rt = recording(kit, folder / "kit", module)
    tried = subprocess.run(
        [rt, "try", "--steps", "1", "--", "--version"], cwd=tree / "crates" / "nap_cli", stdin=subprocess.DEVNULL,
        stdout=subprocess.PIPE, stderr=subprocess.STDOUT, encoding="utf-8", errors="replace",
        env={**os.environ, "TMPDIR": str(folder)},
    )
    if not module.is_file():
        raise NotProved(f"rt try compiles no program of these sources:\n{message_of(tried.stdout, tree, top)}")
    compile_module(kit, module, folder, program)
    version = ask(program, "--version")
    if not version.endswith(f", {NOT_PROVED}"):
        raise NotProved(f"the program's version doesn't say that it isn't proved: {version}")
    return program
