"""Faults that are put into the module for browsers, by its text: each has to be seen beside the library.

A fault is a change of the text that binaryen prints. Where the module has nothing to change for one, it is another
module than this was written for, and the fault has to be written anew.
"""
import re
import subprocess
from pathlib import Path
from typing import Callable, Dict, Tuple

FEATURES = ["--enable-bulk-memory", "--enable-sign-ext", "--enable-mutable-globals"]
# The place of an answer is one more, wherever there is one.
WRONG_PLACE = r"""(export "check" (func $wrong))
 (func $wrong (param $0 i32) (param $1 i32) (param $2 i32) (local $3 i32)
  (call \1 (local.get $0) (local.get $1) (local.get $2))
  (local.set $3 (i32.add (call PLACE) (i32.const 8)))
  (if (i32.ne (i32.const 0) (i32.load (local.get $3)))
   (i32.store (local.get $3) (i32.add (i32.load (local.get $3)) (i32.const 1)))))"""

Change = Callable[[str], Tuple[str, int]]


def constant(before: int, after: int) -> Change:
    """A number of the code is another one."""
    return lambda text: re.subn(rf"\(i64\.const {before}\)", f"(i64.const {after})", text)


def bytes_of_data(before: str, after: str) -> Change:
    """Bytes of the data are others."""
    return lambda text: re.subn(rf'(?<=")([^"]*){re.escape(before)}', lambda found: found[1] + after, text)


def wrong_place(text: str) -> Tuple[str, int]:
    """A refusal has the place after its own."""
    named = re.search(r'\(export "place_of_answer" \(func (\$\S+?)\)\)', text)
    if named is None:
        return text, 0
    return re.subn(r'\(export "check" \(func (\$\S+?)\)\)', WRONG_PLACE.replace("PLACE", named[1]), text)


FAULTS: Dict[str, Change] = {
    "a bound: a polygon has 2,001 displacements": constant(2000, 2001),
    "a bound: a run has 16,385 words": constant(16384, 16385),
    "a table's entry: two digits of a number": bytes_of_data("07080910", "07080911"),
    "a table's entry: the name of a refusal": bytes_of_data("OutsidePenUnknown", "OutsideqenUnknown"),
    "a colour: a bit of green": constant(0x2424242424242424, 0x2424242424242420),
    "a place: the byte after the one that is refused": wrong_place,
}


def printed(module: Path, folder: Path) -> str:
    """The text of a module."""
    made = folder / "module.wat"
    subprocess.run(["wasm-dis", *FEATURES, str(module), "-o", str(made)], check=True)
    return made.read_text("utf-8")


def faulty(text: str, change: Change, into: Path) -> int:
    """Makes a module of a changed text, and tells how many changes there were."""
    changed, count = change(text)
    made = into.with_suffix(".wat")
    made.write_text(changed, "utf-8")
    subprocess.run(["wasm-as", *FEATURES, str(made), "-o", str(into)], check=True)
    return count
