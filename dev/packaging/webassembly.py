"""The module for browsers, naplps.wasm: made of the LLVM code that the proved build of nap_c gave its compiler.

The code was made for x86-64. Its target's name and its layout of data are compared with those that are expected and
taken out, and so are the attributes of functions that say how x86-64 is compiled for. It is compiled for wasm64, whose
pointers have 8 bytes too, linked with a heap and the calls for a host (browser/module), and lowered to wasm32.
"""
import re
import subprocess
import tempfile
from pathlib import Path
from typing import Dict, List, NamedTuple, Set

from dev.layout import TOP

SOURCES = TOP / "browser" / "module"
FILES = ("module.h", "heap.c", "calls.c")
LAYOUT = 'target datalayout = "e-m:e-p270:32:32-p271:32:32-p272:64:64-i64:64-i128:128-f80:128-n8:16:32:64-S128"'
# The layout that clang gives wasm64, which agrees with it in all that the code can see (docs/TRUST.md).
WIDE_LAYOUT = 'target datalayout = "e-m:e-p:64:64-p10:8:8-p20:8:8-i64:64-i128:128-n32:64-S128-ni:1:10:20"'
TRIPLE = 'target triple = "x86_64-unknown-linux-gnu"'
# Attributes of functions that say how they are compiled for x86-64, and nothing of what they mean.
OF_X86 = ("probe-stack", "stack-probe-size", "target-cpu", "target-features", "tune-cpu", "frame-pointer")
# What has a meaning of its own on each processor, or wasn't thought of: there is none of it.
FOREIGN = re.compile(
    r"\b(?:x86\w*|addrspace|asm|inalloca|preallocated|cmpxchg|atomicrmw|atomic|fence|thread_local|blockaddress|"
    r"indirectbr|callbr|landingpad|invoke|va_arg|half|bfloat|float|double|fp128|ppc_fp128|\w+_?cc\d*)\b")
CONVENTIONS = {"fastcc", "coldcc"}
INTRINSICS = re.compile(
    r"llvm\.(?:mem(?:cpy|move|set)|ctlz|cttz|ctpop|bswap|bitreverse|fsh[lr]|[su](?:min|max)|abs|[us](?:add|sub)\.sat|"
    r"[us](?:add|sub|mul)\.with\.overflow|lifetime\.(?:start|end)|assume|expect|trap|vector\.reduce\.\w+|"
    r"experimental\.noalias\.scope\.decl)(?:\.|$)")
# The types of the twelve calls, and of what they ask for memory. An answer is written where the first pointer leads.
TEXT_CALL = "ptr (ptr, i32, ptr, i64, ptr, i64)"
DEFINED = {
    "naplps_check": "ptr (ptr, i32, ptr, i64)", "naplps_list": TEXT_CALL, "naplps_canon": TEXT_CALL,
    "naplps_canon_form1": TEXT_CALL, "naplps_places": TEXT_CALL, "naplps_find": TEXT_CALL,
    "naplps_make": "ptr (ptr, ptr, i64, ptr, i64)", "naplps_is_plain": "i1 (ptr, i64)",
    "naplps_check_begin": "ptr (ptr, ptr, i32)", "naplps_check_feed": "ptr (ptr, ptr, ptr, i64)",
    "naplps_check_finish": "ptr (ptr, ptr)", "naplps_check_drop": "void (ptr)",
}
DECLARED = {
    "rattle_alloc": "{ i64, i64 } (i64, i64)", "rattle_realloc": "{ i64, i64 } (ptr, i64, i64, i64)",
    "rattle_dealloc": "void (ptr)",
}
EXPORTS = (
    "check", "list", "canon", "canon_form1", "places", "find", "make", "is_plain", "check_begin", "check_feed",
    "check_finish", "check_drop", "place_of_answer", "take", "forget", "limit_blocks", "end_of_blocks",
    "end_refused",
)
# The bytes of the stack, below all else, and of memory at most, so that what is below 0 is never there.
STACK = 1 << 16
MOST_MEMORY = (1 << 32) - (1 << 20)
COMPILED = ("--target=wasm64-unknown-unknown", "-mcpu=mvp", "-mbulk-memory", "-msign-ext", "-O3")
FEATURES = ("--enable-bulk-memory", "--enable-sign-ext", "--enable-mutable-globals")


class NotMade(Exception):
    """The module can't be made, and why."""


class Tools(NamedTuple):
    """The toolchain's folder of programs, and binaryen's program."""

    programs: Path
    lowering: str

    def versions(self) -> Dict[str, str]:
        """What makes the module, each with its version, as MADE has them; raises NotMade where one isn't there."""
        clang = run([str(self.programs / "clang"), "--version"]).splitlines()[0]
        found = re.search(r"version (\d+)", run([self.lowering, "--version"]))
        if found is None:
            raise NotMade(f"{self.lowering} tells no version")
        return {"clang": clang, "binaryen": found[1]}


def run(words: List[str]) -> str:
    """What a program prints; raises NotMade where it fails or isn't there."""
    try:
        said = subprocess.run(words, stdout=subprocess.PIPE, stderr=subprocess.PIPE, encoding="utf-8", errors="replace")
    except OSError as error:
        raise NotMade(f"{words[0]}: {error.strerror}") from None
    if said.returncode:
        raise NotMade(f"{words[0]} failed:\n{said.stderr[-3000:].rstrip()}")
    return said.stdout


def neutral(text: str) -> str:
    """LLVM code without what says that it is for x86-64; raises NotMade where it has anything that isn't expected."""
    lines = text.splitlines()
    for name, wanted in (("datalayout", LAYOUT), ("triple", TRIPLE)):
        told = [line for line in lines if line.startswith(f"target {name} ")]
        if told != [wanted]:
            raise NotMade(f"the code's {name} isn't the one that was compared: {told}")
    attributes = re.compile(" \"(?:" + "|".join(OF_X86) + ")\"=\"[^\"]*\"")
    made = []
    for line in lines:
        if line.startswith(("target ", "source_filename ", "; ModuleID ")):
            continue
        if line.startswith("attributes #"):
            line = attributes.sub("", line)
            if '"' in line:
                raise NotMade(f"an attribute of functions isn't expected: {line}")
        made.append(line)
    compare_words(made)
    compare_types(made)
    return "".join(f"{line}\n" for line in made)


def compare_layout(clang: str) -> None:
    """Raises NotMade where clang compiles for another layout of wasm64 than the one that was compared."""
    said = run([clang, COMPILED[0], "-S", "-emit-llvm", "-x", "c", "/dev/null", "-o", "-"])
    if WIDE_LAYOUT not in said.splitlines():
        raise NotMade(f"clang has another layout for wasm64 than the one that was compared, {WIDE_LAYOUT}")


def compare_words(lines: List[str]) -> None:
    """Raises NotMade where the code has a word that is of one processor, or a function of LLVM that isn't expected."""
    quoted = re.compile(r'c?"[^"]*"|;.*')
    for number, line in enumerate(lines, 1):
        bare = quoted.sub('""', line)
        found = [word for word in FOREIGN.findall(bare) if word not in CONVENTIONS]
        if found:
            raise NotMade(f"line {number} of the code has {found[0]}, which isn't expected: {line.strip()[:200]}")
        if bare.startswith("declare ") and "@llvm." in bare:
            name = bare.partition("@")[2].partition("(")[0]
            if INTRINSICS.match(name) is None:
                raise NotMade(f"the code asks for {name}, which isn't expected")


def compare_types(lines: List[str]) -> None:
    """Raises NotMade where one of the calls, or what they ask for memory, has another type than is expected."""
    found = {}
    for line in lines:
        named = re.match(r"(define|declare) [^@]*?(\{[^@]*\}|[^@ ]+) @(\w+)\((.*?)\)(?: .*)?$", line)
        if named and named[3] in (DEFINED if named[1] == "define" else DECLARED):
            types = [part.split()[0] for part in named[4].split(", ") if part]
            found[named[3]] = f"{named[2]} ({', '.join(types)})"
    for name, wanted in {**DEFINED, **DECLARED}.items():
        if found.get(name) != wanted:
            raise NotMade(f"{name} has the type {found.get(name, 'of nothing: it is missing')}; expected was {wanted}")


def make_module(code: Path, tools: Tools) -> bytes:
    """The bytes of naplps.wasm, of the LLVM code in a file; the same for the same code, sources and versions."""
    with tempfile.TemporaryDirectory(prefix="naplps-module-") as name:
        folder = Path(name)
        clang = str(tools.programs / "clang")
        compare_layout(clang)
        words = [clang, "-S", "-emit-llvm", "-O0", "-Xclang", "-disable-llvm-passes", "-x", "ir", str(code)]
        run([*words, "-o", str(folder / "given.ll")])
        given = (folder / "given.ll").read_text("utf-8")
        (folder / "nap_c.ll").write_text(neutral(given), "utf-8")
        run([clang, *COMPILED, "-Wno-override-module", "-mllvm", "-trap-unreachable=true", "-c", "-x", "ir",
             str(folder / "nap_c.ll"), "-o", str(folder / "nap_c.o")])
        for source in ("heap", "calls"):
            run([clang, *COMPILED, "-std=c23", "-ffreestanding", "-Wall", "-Wextra", "-Werror", "-c",
                 str(SOURCES / f"{source}.c"), "-o", str(folder / f"{source}.o")])
        return linked(folder, tools)


def linked(folder: Path, tools: Tools) -> bytes:
    """The objects of a folder as one module, lowered to wasm32. A call of another type than the one called ends it."""
    linker = folder / "wasm-ld"
    linker.symlink_to(tools.programs / "ld.lld")
    wide, low, made = (str(folder / f"{name}.wasm") for name in ("wide", "low", "naplps"))
    run([str(linker), "-mwasm64", "--no-entry", "--gc-sections", "--fatal-warnings", "--stack-first", "-z",
         f"stack-size={STACK}", f"--max-memory={MOST_MEMORY}", "--strip-all", *(f"--export={name}" for name in EXPORTS),
         *(str(folder / f"{name}.o") for name in ("heap", "calls", "nap_c")), "-o", wide])
    run([tools.lowering, "--enable-memory64", *FEATURES, "--memory64-lowering", wide, "-o", low])
    run([tools.lowering, *FEATURES, "-O2", "--strip-producers", "--strip-target-features", low, "-o", made])
    text = run([tools.lowering, *FEATURES, "--print", made, "-o", str(folder / "printed.wasm")])
    depth = deepest_stack(text)
    if depth > STACK:
        raise NotMade(f"the stack may be {depth} bytes deep, and has {STACK}")
    return Path(made).read_bytes()


def deepest_stack(text: str) -> int:
    """How many bytes of its stack a module can use at most, by its calls; raises NotMade where it could be any number.
    The text is binaryen's, in which the stack pointer is the first global."""
    pointer = re.compile(r"\(global\.get \$global\$0\)")
    moved = re.compile(r"\(i64\.(sub|add)\s+\(global\.get \$global\$0\)\s+\(i64\.const (-?\d+)\)")
    frames: Dict[str, int] = {}
    calls: Dict[str, Set[str]] = {}
    for part in re.split(r"\n \(func ", text)[1:]:
        name = part.partition(" ")[0].rstrip(")")
        moves = [int(number) if kind == "sub" else -int(number) for kind, number in moved.findall(part)]
        if len(moves) != len(pointer.findall(part)) or min(moves, default=0) < 0 or "call_indirect" in part:
            raise NotMade(f"function {name} of the module moves its stack, or calls, in a way that isn't expected")
        frames[name], calls[name] = sum(moves), set(re.findall(r"\(call (\$\S+?)[\s)]", part))
    depths: Dict[str, int] = {}
    while len(depths) < len(frames):
        ready = [name for name in frames if name not in depths and calls[name] <= depths.keys()]
        if not ready:
            raise NotMade("functions of the module call one another in a circle, so its stack may have any depth")
        depths.update({name: frames[name] + max((depths[other] for other in calls[name]), default=0) for name in ready})
    return max(depths.values(), default=0)
