"""Words of earlier versions are answered by what is said now, with the status 2."""
import pytest

COMMANDS = {"look": "show", "play": "show", "text": "show --format text", "describe": "show --format words",
            "explain": "check --explain", "cures": "fix", "split": "fix", "carve": "fix", "merge": "scan --merge",
            "census": "files --census", "near": "equal --nearly", "serve": "report --serve", "source": "make --from",
            "refused": "files --refused", "status": "files", "convert": "canon"}
# The options of each command that are named another way now, and their names; of an option with two, both.
OPTIONS = {
    "show": {"--into": "-o, --output", "--after": "--previous", "--seconds": "--timeout", "--dots": "--format png",
             "--png": "--format png", "--animate": "--format apng", "--speed": "--baud", "--past": "--guess",
             "--svg": "--format svg", "--sheet": "-o, --output"},
    "check": {"--after": "--previous", "--full": "--explain --json"}, "list": {"--after": "--previous"},
    "canon": {"--into": "-o, --output"}, "fix": {"--into": "-o, --output", "--least": "--min-entries"},
    "make": {"--into": "-o, --output", "--look": "--format svg"}, "diff": {"--html": "--format html"},
    "scan": {"--into": "-o, --output", "--again": "--rescan", "--most": "--max-size", "--part": "--shard",
             "--on": "--dask", "--no-words": "--skip words", "--no-cures": "--skip repair", "--unfinished": "--force",
             "--processes": "-j, --jobs"},
    "box": {"--into": "-o, --output", "--no-carve": "--skip carve"}, "files": {"--null": "-0, --print0"},
    "equal": {"--by": "--pictures", "--with": "--include", "--null": "-0, --print0"},
    "report": {"--replace": "--force", "--sketches": "--max-pictures", "--processes": "-j, --jobs"},
    "find": {"--null": "-0, --print0"}}


@pytest.mark.parametrize("old", sorted(COMMANDS))
def test_an_old_command_names_the_new_one(run, old):
    for words in ([old], [old, "page"], [old, "--help"], ["help", old]):
        said = run(words)
        told, now = said.stderr.decode(), COMMANDS[old]
        assert (said.stdout, said.returncode, told.count("\n")) == (b"", 2, 1)
        assert told.startswith(f"naplps-pages: {old} is now {now}")


@pytest.mark.parametrize("command, old", [(command, old) for command in OPTIONS for old in sorted(OPTIONS[command])])
def test_an_old_option_names_the_new_one(run, command, old):
    for word in (old, old + "=x"):
        said = run([command, "x", word, "y"])
        start = f"naplps-pages {command}: error: {old} is now "
        told = said.stderr.decode().splitlines()[-1]
        assert (said.stdout, said.returncode) == (b"", 2) and told.startswith(start)
        assert told[len(start):] in [OPTIONS[command][old], *OPTIONS[command][old].split(", ")]
