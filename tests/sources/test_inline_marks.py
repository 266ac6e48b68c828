"""Each function that is marked to be inlined is inlined wherever the program calls it.

The compiler drops a mark without a word where a function grows large, and then the function has a symbol of its own.
Those that stand by themselves all the same are in inline-marks.tsv, with the reason. The program is
that of dist.
"""
import re
import shutil
import subprocess
from pathlib import Path
from typing import Dict, Iterator, Set, Tuple

import pytest

from dev.layout import TOP
from dev.rattle.items import functions_in
from dev.tables import rows_in

PROGRAM, MARK = TOP / "dist" / "x86_64-linux-gnu" / "naplps", "#[inline(always)]"
TABLE, COLUMNS = Path(__file__).with_name("inline-marks.tsv"), ("crate", "function", "reason")
# The trait of an impl, if it is of one, and its type; or a trait.
OWNER = re.compile(
    r"impl(?:<.*?>)? (?:(?P<trait>[\w:]+)(?:<.*>)? for )?&?(?:'\w+ )?(?:mut )?(?:\w+::)*(?P<type>\w+)"
    r"|(?:pub(?:\([^)]*\))? )?trait (?P<own>\w+)"
)
# A function: its crate, and its name with its type and trait, or with its module.
Name = Tuple[str, str]


def module_of(path: Path, source: Path) -> str:
    """The module of a file of a crate's sources, with colons at its end; empty at the top."""
    parts = list(path.relative_to(source).with_suffix("").parts)
    if parts[-1] in ("lib", "main", "mod"):
        parts.pop()
    return "".join(f"{part}::" for part in parts)


def marked_in(text: str, module: str, mark: str) -> Iterator[str]:
    """The names of the functions of a source that have an attribute."""
    for function in functions_in(text):
        if mark in function.attributes:
            owner = OWNER.match(function.owner)
            trait = (owner["trait"] or "").rpartition("::")[2] if owner else ""
            yield f"{(owner['type'] or owner['own']) + trait}::{function.name}" if owner else module + function.name


def marked(top: Path) -> Dict[Name, str]:
    """The functions of all crates that are marked, each with its file."""
    found: Dict[Name, str] = {}
    for source in sorted(top.glob("crates/*/src")):
        for path in sorted(source.rglob("*.rt")):
            for name in marked_in(path.read_text("utf-8"), module_of(path, source), MARK):
                found.setdefault((source.parent.name, name), str(path.relative_to(top)))
    return found


def name_of(symbol: str) -> Name:
    """The name of a function by its symbol, `crate::module::Type::name::<..>`. A method has its type alone before it,
    since it may stand in another module than its type."""
    plain = re.sub(r"'\d+$", "", symbol.partition("::<")[0])
    crate, _, rest = plain.partition("::")
    parts = rest.split("::")
    return crate, "::".join(parts[-2:] if len(parts) > 1 and parts[-2][:1].isupper() else parts)


@pytest.fixture(scope="module")
def standing() -> Set[Name]:
    """The functions that have a symbol in the program."""
    if shutil.which("nm") is None:
        pytest.skip("there is no nm")
    ran = subprocess.run(["nm", str(PROGRAM)], stdout=subprocess.PIPE, encoding="utf-8", check=True)
    found = {name_of(line.split()[-1]) for line in ran.stdout.splitlines() if "::" in line}
    assert found, f"{PROGRAM} has no symbols of functions"
    return found


def test_marked_functions_are_inlined(standing: Set[Name]) -> None:
    excused = {(crate, function) for crate, function, _ in rows_in(TABLE, COLUMNS)}
    functions = marked(TOP)
    assert functions, f"no function is marked {MARK}"
    wrong = [f"{file}: {'::'.join(name)} is marked, and stands by itself" for name, file in functions.items()
             if name in standing and name not in excused]
    wrong += [f"{TABLE.name}: {'::'.join(name)} is inlined: take its row out" for name in excused
              if name not in standing or name not in functions]
    assert not wrong, "\n".join(wrong)


SOURCE = """impl<R: Read> Inlet for Source<R> {
    #[inline]
    fn read(&mut self) {
    }
}

impl Source {
    #[inline]
    pub(crate) fn new() {}

    fn unmarked() {}
}

impl low::Inlet<u8> for &mut device::Bytes<'_> {
    #[inline]
    fn more() {}
}

pub(crate) trait Inlet {
    #[inline]
    fn end() {}
}

/// Is free.
#[inline]
pub fn free() {}
"""


def test_functions_have_types_and_traits_or_modules() -> None:
    module = module_of(Path("/low/src/device/source.rt"), Path("/low/src"))
    assert list(marked_in(SOURCE, module, "#[inline]")) == [
        "SourceInlet::read", "Source::new", "BytesInlet::more", "Inlet::end", "device::source::free"]
    assert module_of(Path("/low/src/device/mod.rt"), Path("/low/src")) == "device::"


@pytest.mark.parametrize("symbol, name", [
    ("low::device::source::SourceInlet::read::<#f1>'2", ("low", "SourceInlet::read")),
    ("low::device::source::free", ("low", "device::source::free")), ("low::main", ("low", "main")),
])
def test_names_of_symbols(symbol: str, name: Name) -> None:
    assert name_of(symbol) == name
