"""The program on words and a text, and the environment of a shell that finds it by the name naplps."""
import os
import subprocess
from pathlib import Path
from typing import Dict, Sequence, Union

from dev.judging import Answer, run


def answer(program: str, words: Union[str, Sequence[Union[str, bytes]]], text: bytes = b"") -> Answer:
    """What the program answers to words and a text. The words of a string have single blanks between them."""
    return run([program, *(words.split(" ") if isinstance(words, str) else words)], text, stdin=subprocess.PIPE)


def with_naplps(program: str, folder: Path) -> Dict[str, str]:
    """The environment of a shell in which naplps is the program, by a link in a new folder."""
    folder.mkdir()
    (folder / "naplps").symlink_to(program)
    environment = {name: text for name, text in os.environ.items() if name != "CDPATH"}
    return {**environment, "PATH": f"{folder}{os.pathsep}{os.environ['PATH']}", "LC_ALL": "C"}
