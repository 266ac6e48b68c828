"""What makes the module for browsers: what of the code it takes out, and what ends it."""
import subprocess
from pathlib import Path

import pytest

from dev.packaging.keeping import keeping
from dev.packaging.webassembly import DECLARED, DEFINED, LAYOUT, TRIPLE, NotMade, deepest_stack, neutral


def code(*more: str, **changed: str) -> str:
    """LLVM code with the calls of the library, their types changed where that is named, and more lines."""
    lines = ['; ModuleID = "x86"', 'source_filename = "rattle"', LAYOUT, TRIPLE]
    for keyword, types, end in (("define noundef", DEFINED, " #0 {"), ("declare", DECLARED, " #1")):
        for name, usual in types.items():
            answer, _, operands = changed.get(name, usual).partition(" (")
            words = [f"{kind} noundef %a{number}" for number, kind in enumerate(operands.rstrip(")").split(", "))]
            lines.append(f"{keyword} {answer} @{name}({', '.join(words)}){end}")
    return "\n".join([*lines, 'attributes #0 = { nounwind "target-cpu"="x86-64-v2" }', *more]) + "\n"


def function(name: str, frame: int, *calls: str) -> str:
    """A function as binaryen prints it, with a frame on the stack and calls."""
    less = f"(i64.sub\n     (global.get $global$0)\n     (i64.const {frame}))"
    moved = f"  (global.set $global$0\n   (local.tee $1\n    {less}))\n"
    return f"\n (func ${name} (param $0 i64)\n{moved}" + "".join(f"  (call ${other}\n  )\n" for other in calls) + " )"


def test_target_is_taken_out() -> None:
    """The target, the layout and the names of files go, and attributes that are of x86-64."""
    left = neutral(code('@.text = constant [5 x i8] c"float"', 'define fastcc void @"core::arch::x86"() {'))
    assert "target" not in left
    assert "ModuleID" not in left
    assert "attributes #0 = { nounwind }" in left


@pytest.mark.parametrize("text, reason", [
    (code().replace("n8:16:32:64", "n32:64"), "datalayout"),
    (code().replace("x86_64-unknown", "aarch64-unknown"), "triple"),
    (code(LAYOUT), "datalayout"),
    (code(naplps_check="ptr (ptr, i64, ptr, i64)"), "naplps_check has the type"),
    (code(naplps_is_plain="i8 (ptr, i64)"), "naplps_is_plain has the type i8"),
    (code(rattle_alloc="ptr (i64, i64)"), "rattle_alloc has the type"),
    (code().replace("naplps_make", "naplps_made"), "naplps_make .* it is missing"),
    *((code(line), "expected") for line in (
        "declare <16 x i8> @llvm.x86.ssse3.pshuf.b.128(<16 x i8>, <16 x i8>)",
        'call void asm sideeffect "nop", ""()',
        "  %1 = load ptr addrspace(1), ptr %a",
        "  %1 = fadd double %a, %b",
        "  %1 = cmpxchg ptr %a, i32 0, i32 1 seq_cst seq_cst",
        "@x = thread_local global i8 0",
        "define x86_stdcallcc void @f() {",
        "declare void @llvm.va_start.p0(ptr)",
        'attributes #2 = { nounwind "unheard-of"="yes" }',
    )),
], ids=lambda text: "" if "\n" in text else text)
def test_code_that_is_not_expected_is_refused(text: str, reason: str) -> None:
    """Another layout or triple, and a second one, a call of another type, or none, and instructions, types and
    functions of one processor, or that weren't thought of, end it."""
    with pytest.raises(NotMade, match=reason):
        neutral(text)


def test_stack_is_the_deepest_way() -> None:
    """It is the deepest of all ways through the calls."""
    text = function("0", 16) + function("1", 32, "0") + function("2", 8, "0", "1") + function("3", 100)
    assert deepest_stack("(module" + text + ")") == 100
    assert deepest_stack("(module" + text + function("4", 64, "2") + ")") == 120


@pytest.mark.parametrize("text", [
    function("0", 16, "1") + function("1", 32, "0"), function("0", 16, "0"), function("0", -16),
    function("0", 16).replace("i64.sub", "i64.mul"), function("0", 16).replace("(local.tee", "(call_indirect"),
], ids=["circle of two", "circle of one", "less than nothing", "another frame", "table"])
def test_stack_without_an_end_is_refused(text: str) -> None:
    """Functions that call one another in a circle, and calls through a table, end it."""
    with pytest.raises(NotMade):
        deepest_stack("(module" + text + ")")


def test_toolchain_keeps_modules(tmp_path: Path) -> None:
    """Modules of LLVM are kept, other files aren't; clang does what it did, and the other programs stand there."""
    top = tmp_path / "a tool's chain"
    (top / "bin").mkdir(parents=True)
    (top / "lib").mkdir()
    (top / "bin" / "clang").write_text('#!/bin/sh\necho "$@"\nexit 3\n', "ascii")
    (top / "bin" / "clang").chmod(0o755)
    (top / "bin" / "ld.lld").symlink_to("clang")
    module, other = tmp_path / "a module.bc", tmp_path / "b.c"
    module.write_bytes(b"BC\xc0\xde\0")
    other.write_bytes(b"int b;\n")
    with keeping(top) as tools:
        words = [str(tools.toolchain / "bin" / "clang"), "-c", str(module), str(other)]
        result = subprocess.run(words, stdout=subprocess.PIPE, encoding="utf-8")
        assert (result.returncode, result.stdout) == (3, " ".join(words[1:]) + "\n")
        assert [path.read_bytes() for path in tools.modules()] == [module.read_bytes()]
        assert (tools.toolchain / "lib").resolve() == (top / "lib").resolve()
        assert (tools.toolchain / "bin" / "ld.lld").exists()
    assert not tools.toolchain.exists()
