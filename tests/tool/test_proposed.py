"""Commands that are proposed to people: a shell and the tool read the name in them as that of a file."""
import json
import os
import re
import shlex
import subprocess
from pathlib import Path

import pytest

from command import PACKAGES, file
from naplps.names import quoted
from samples import OUTSIDE, needs_node

NAMES = ("a.nap", "--output=x", "--", "-", "-h", "--json", "-o/etc/x", "a b", "it's", "$(date)", "`x`", "~root", "a;b",
         "#a", "!x", "a\nb", "a\x1bb", "a\\b", "é.nap", "../-x", "-'\"", "*", "{a,b}", "%s", "")


@pytest.mark.parametrize("name", NAMES)
def test_a_name_is_no_option_and_one_word(name):
    words = shlex.split(f"naplps-pages fix {quoted(name)} -o fixed")
    assert len(words) == 5 and words[3:] == ["-o", "fixed"] and not words[2].startswith("-")
    assert words[2] == "PAGE" or os.path.normpath(words[2]) == os.path.normpath(name)


def test_explain_proposes_no_option(run, tmp_path):
    file(tmp_path, "--output=x", b"\x0e\xff" + OUTSIDE)
    for words in (["check", "--explain", "--", "--output=x"], ["./--output=x"]):
        said = run(words, cwd=str(tmp_path)).stdout.decode()
        assert re.findall(r"naplps-pages fix (\S+) -o \S+", said) == ["./--output=x"], words
    done = run(["fix", "./--output=x", "-o", "fixed"], cwd=str(tmp_path))
    assert done.returncode in (0, 1) and b"unrecognized" not in done.stderr


@needs_node
def test_a_report_quotes_as_the_tool_does():
    source = Path(PACKAGES, "naplps_pages", "report", "elements.js").read_text("utf-8")
    lines = re.findall(r"^const quoted(?:Path)? = .*;$", source, re.MULTILINE)
    names = [name for name in NAMES if name != "-" and name.isprintable()]
    program = "\n".join(reversed(lines)) + f"\nconsole.log(JSON.stringify({json.dumps(names)}.map(quoted)))"
    said = subprocess.run(["node", "-e", program], capture_output=True, text=True, check=True).stdout
    for name, shown in zip(names, json.loads(said)):
        assert shlex.split(shown) == shlex.split(quoted(name)), name
