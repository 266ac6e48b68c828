"""Starts the interpreters of workers. They find modules in this package and in the standard library alone."""
import os
import subprocess
import sys
from typing import List

from naplps.client import for_child

# The folder in which this package stands.
FOLDER = os.path.dirname(os.path.dirname(os.path.abspath(__file__)))
START = ("import sys; sys.path.insert(0, sys.argv[1]); from importlib import import_module; "
         "import_module(sys.argv[2]).main(*map(int, sys.argv[3:]))")


def interpreter(module: str, *numbers: int, folder: str = FOLDER) -> List[str]:
    """The command of an interpreter that calls `main` of a module with these numbers.

    The current folder, the folders that the environment names and those of the user or of a site aren't in its path:
    only `folder` and the standard library are. File names are read as they are read here.
    """
    names = f"utf8={sys.flags.utf8_mode}"
    return [sys.executable, "-I", "-S", "-B", "-X", names, "-c", START, folder, module, *map(str, numbers)]


def start(module: str, descriptor: int, folder: str = FOLDER) -> "subprocess.Popen[bytes]":
    """Starts an interpreter that calls `main` of a module with the descriptor of a connection, and has no other."""
    return subprocess.Popen(interpreter(module, descriptor, folder=folder), pass_fds=[descriptor],
                            stdin=subprocess.DEVNULL, stdout=subprocess.DEVNULL, stderr=subprocess.DEVNULL,
                            start_new_session=True, env=for_child())
