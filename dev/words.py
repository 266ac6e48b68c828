"""The words of a command."""
import sys
from argparse import ArgumentParser, RawDescriptionHelpFormatter
from pathlib import Path
from typing import Optional


def parser_of(text: Optional[str]) -> ArgumentParser:
    """The parser of `python3 -m dev.NAME`, whose help begins with the docstring of the module."""
    name = f"python3 -m dev.{Path(sys.argv[0]).stem}"
    return ArgumentParser(name, description=text, formatter_class=RawDescriptionHelpFormatter)
