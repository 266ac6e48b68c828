"""The version: that of the file VERSION, which stands beside this one where naplps is installed, or at the top of its
sources; and of a copy that pip installed, what that was installed as."""
import os


def read_version() -> str:
    """The version of this module."""
    here = os.path.dirname(os.path.realpath(__file__))
    for folder in (here, os.path.dirname(os.path.dirname(here))):
        path = os.path.join(folder, "VERSION")
        if os.path.isfile(path):
            with open(path, encoding="utf-8") as file:
                return file.read().strip()
    from importlib import metadata  # (what takes long to be imported, and is needed here alone)
    return metadata.version("naplps")


__version__ = VERSION = read_version()
