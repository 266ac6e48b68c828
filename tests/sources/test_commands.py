"""What a contributor can run: the commands of dev/, the Makefile that lists them, and the files that are executed."""
import ast
import re
import shutil
import subprocess
import sys
from pathlib import Path
from typing import Dict, Iterator, List

import pytest

TOP = Path(__file__).resolve().parents[2]
MAKEFILE = (TOP / "Makefile").read_text("utf-8")
# A line of targets with its help, and the command below it.
RULE = re.compile(r"^(?P<targets>[a-z][a-z -]*):  ## (?P<help>.+)\n\t(?P<command>.+)$", re.MULTILINE)
COMMAND = re.compile(r"python3 -m dev\.(?P<module>\w+)(?: --page)? \$\(ARGS\)"
                     r"|(?P<script>scripts/[\w-]+) \$\(ARGS\)|(?:pytest|rt ci) \$\(ARGS\)")
EXECUTABLES = {
    ".ci/run", "browser/list-canonical.mjs", "debian/rules", "dist/x86_64-linux-gnu/naplps", "library/make-library",
    "library/make-portable", "naplps", "pages/naplps-pages", "python/naplps/canonical.py", "scripts/build",
    "scripts/files-sum", "scripts/install", "scripts/test-all", "tests/lib/sbatch_stub.py", "vectors/run",
}


def is_command(tree: ast.Module) -> bool:
    """Whether a module ends with what it does when it is run."""
    last = tree.body[-1]
    return isinstance(last, ast.If) and "__main__" in ast.dump(last.test)


MODULES = {path.stem: ast.parse(path.read_text("utf-8"), str(path)) for path in sorted((TOP / "dev").glob("*.py"))}
COMMANDS = [name for name, tree in MODULES.items() if is_command(tree)]


def commands_by_target() -> Dict[str, str]:
    """The command of each target of the Makefile that has a help, but for `help` itself."""
    found = {}
    for rule in RULE.finditer(MAKEFILE):
        for target in rule["targets"].split():
            found[target] = rule["command"].replace("$(subst -,_,$@)", target.replace("-", "_"))
    del found["help"]
    return found


TARGETS = commands_by_target()


def words_without_help(tree: ast.Module) -> Iterator[str]:
    """The words that a module adds to a parser and doesn't explain."""
    for node in ast.walk(tree):
        if isinstance(node, ast.Call) and getattr(node.func, "attr", "") == "add_argument":
            if not any(keyword.arg == "help" for keyword in node.keywords):
                yield f"line {node.lineno}: {ast.dump(node.args[0])}"


@pytest.mark.parametrize("name", COMMANDS)
def test_a_command_explains_itself(name: str) -> None:
    """Its help begins with how it is called, and has its docstring."""
    result = subprocess.run([sys.executable, "-m", f"dev.{name}", "--help"], cwd=TOP, capture_output=True,
                            encoding="utf-8", stdin=subprocess.DEVNULL)
    assert (result.returncode, result.stderr) == (0, "")
    assert re.match(rf"usage: python3 -m dev\.{name} \[-h\]", result.stdout), result.stdout
    assert (ast.get_docstring(MODULES[name]) or "no docstring") in result.stdout
    assert not list(words_without_help(MODULES[name]))


@pytest.mark.parametrize("name", COMMANDS)
def test_a_command_has_a_main_that_answers_its_status(name: str) -> None:
    main = [node for node in MODULES[name].body if isinstance(node, ast.FunctionDef) and node.name == "main"]
    assert main, f"dev/{name}.py has no function main"
    assert not main[0].args.args and getattr(main[0].returns, "id", "") == "int", f"dev/{name}.py: not main() -> int"
    assert "sys.exit(main())" in ast.unparse(MODULES[name].body[-1])


@pytest.mark.parametrize("name", COMMANDS)
def test_a_command_is_in_the_makefile(name: str) -> None:
    assert any(re.match(rf"python3 -m dev\.{name}\b", command) for command in TARGETS.values())


@pytest.mark.parametrize("target", TARGETS)
def test_a_target_runs_what_is_there(target: str) -> None:
    command = COMMAND.fullmatch(TARGETS[target])
    assert command, f"{target}: {TARGETS[target]}"
    assert command["module"] is None or command["module"] in COMMANDS
    assert command["script"] is None or (TOP / command["script"]).is_file()


def test_the_makefile_is_short_and_each_target_has_help() -> None:
    lines = MAKEFILE.splitlines()
    assert len(lines) <= 80
    heads = [line.partition(":")[0] for line in lines if re.match(r"[\w.-][^=]*:", line)]
    assert heads == [".PHONY", *(rule["targets"] for rule in RULE.finditer(MAKEFILE))]


@pytest.mark.skipif(shutil.which("make") is None, reason="make isn't there (Debian: apt-get install make)")
@pytest.mark.parametrize("words", [[], ["help"]], ids=["alone", "help"])
def test_make_lists_the_targets(words: List[str]) -> None:
    """With each target its help is printed, on its line or on the next."""
    result = subprocess.run(["make", *words], cwd=TOP, capture_output=True, encoding="utf-8", check=True)
    listed = " ".join(result.stdout.split())
    for rule in RULE.finditer(MAKEFILE):
        assert f"{rule['targets']} {rule['help']}" in listed


def test_few_files_are_executed() -> None:
    listed = subprocess.run(["git", "ls-files", "-sz"], cwd=TOP, capture_output=True, encoding="utf-8")
    if listed.returncode:
        pytest.skip("git knows no files here")
    files = (line.partition("\t") for line in listed.stdout.split("\0"))
    assert {name for mode, _, name in files if mode.startswith("100755 ")} == EXECUTABLES
