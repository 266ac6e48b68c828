"""Scripts of tests/lib that Node runs."""
import json
import os
import subprocess
from typing import Any, Sequence

from command import LIB


def ask_node(script: str, questions: Sequence[object], *words: str) -> Any:
    """What a script answers to questions, all as JSON."""
    result = subprocess.run(["node", os.path.join(LIB, script), *words], input=json.dumps(questions).encode("ascii"),
                            capture_output=True)
    assert (result.returncode, result.stderr) == (0, b""), script
    return json.loads(result.stdout)
